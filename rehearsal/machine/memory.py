"""The memory after so many events. No program prints it: stores are followed, and held against `inspect`'s digest."""
from rehearsal.machine.state import digest
from rehearsal.script.event import STORE


class LostTrack(Exception):
    """The digest is another: what is computed here would be untrue."""


def memory_after(script, answers, states):
    """The memory after the events whose answers and states are given."""
    memory = bytearray(script.image)
    for event, answer, state in zip(script.events, answers, states):
        if event.kind == STORE and answer.letter in "VB":
            store(memory, script.header.base, event, state)
    if states and digest(memory) != states[-1].memory:
        raise LostTrack(f"the memory after event {len(states) - 1} is not the one that inspect saw")
    return bytes(memory)


def store(memory, base, event, state):
    """An allowed store writes its bytes that lie inside. The TLB after it is the one by which its bytes were found."""
    value = (event.b & (1 << 8 * event.size) - 1).to_bytes(event.size, "big")
    for k, byte in enumerate(value):
        place = state.physical((event.a + k) % (1 << 32)) - base
        if 0 <= place < len(memory):
            memory[place] = byte

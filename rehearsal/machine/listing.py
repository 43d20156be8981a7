"""A listing as the runner prints it, and the states that `inspect` prints between its lines."""
from dataclasses import dataclass

from rehearsal.machine.state import parse_state


@dataclass(frozen=True)
class Answer:
    """One line: index, letter, value (CAUSE, refusal number), stall and walk reads; `text` is the line itself."""

    index: int
    letter: str
    value: int
    stall: int
    reads: int
    text: str


def parse_answer(text):
    index, letter, digits, stall, reads = text.split(" ")
    return Answer(int(index), letter, int(digits, 16), int(stall), int(reads), text)


def refused_number(listing):
    """The number of a refused script, or None."""
    return int(listing.split()[1]) if listing.startswith("refused ") else None


def answers(listing):
    """The lines of the events; the last line, `end` and the count, is none."""
    return [parse_answer(line) for line in listing.splitlines()[:-1]]


def without_states(inspected):
    return "".join(line + "\n" for line in inspected.splitlines() if not line.startswith("S "))


def states(inspected):
    """The state after each event."""
    found = []
    for line in inspected.splitlines():
        if line.startswith("S "):
            name, _, numbers = line[2:].partition(" ")
            found[-1][name] = numbers
        else:
            found.append({})
    return [parse_state(lines) for lines in found[:-1]]

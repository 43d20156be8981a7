"""What a picture shows, before it is drawn: a state, its memory, who can touch what, and the premises."""
from dataclasses import dataclass

from rehearsal.language.forms import event_text
from rehearsal.machine.build import CannotRun
from rehearsal.machine.memory import memory_after
from rehearsal.machine.state import State, start_state
from rehearsal.picture.opened import Access, Hidden, Memory, access_of
from rehearsal.picture.opened import hidden_in_open_pages, hidden_in_tables, tables_open_for_writing
from rehearsal.picture.options import START
from rehearsal.script.event import ACCESSES


@dataclass
class Premise:
    """A premise as a sentence, with its number in docs/ANSWER.md if it has one, and what breaks it."""

    says: str
    faults: list[str]


@dataclass
class Scene:
    """`moment` says after which event; `notes` are what else demand 3 asks for."""

    name: str
    moment: str
    state: State
    access: Access
    hidden: list[Hidden]
    premises: list[Premise]
    notes: list[str]

    @property
    def broken(self):
        return any(premise.faults for premise in self.premises)


def make_scene(source, run, hidden, after):
    script = source.decoded()
    index = chosen_index(script, after)
    state = run.states[index] if index > START else start_state(script.image)
    memory = memory_after(script, run.answers[:index + 1], run.states[:index + 1])
    access = access_of(Memory(memory, script.header.base), state)
    moment = f"after event {index}: {event_text(script.events[index])}" if index > START else "before the first event"
    notes = alignment_notes(script.events, index)
    return Scene(source.name, moment, state, access, hidden, premises_of(state, access, hidden), notes)


def chosen_index(script, after):
    last = len(script.events) - 1
    if after is None:
        return last
    if after > last:
        raise CannotRun(f"--after {after}: the script's last event is {last}")
    return after


def premises_of(state, access, hidden):
    mode = Premise("The task runs in user mode with translation on", mode_faults(state))
    third = "3. No table byte lies in a page that is open to users for writing"
    each = [premise for one in hidden for premise in hidden_premises(access, one)]
    return [mode, *each, Premise(third, tables_open_for_writing(access))]


def hidden_premises(access, hidden):
    return (
        Premise(f"1. No byte of {hidden} is a table byte", hidden_in_tables(access, hidden)),
        Premise(f"2. No byte of {hidden} lies in a page that is open to users", hidden_in_open_pages(access, hidden)),
    )


def mode_faults(state):
    if not state.user:
        return ["in supervisor mode nothing is checked; the picture shows what a user would meet after an IRET"]
    if not state.translation:
        return ["translation is off, so regions decide; the picture shows what a user would meet with it on"]
    return []


def alignment_notes(events, index):
    """Demand 3 is about aligned accesses: of those that follow, up to the next other event, which are not?"""
    unaligned = []
    for k in range(index + 1, len(events)):
        if events[k].kind not in ACCESSES:
            break
        if not events[k].size or events[k].a % events[k].size:
            unaligned.append(str(k))
    if not unaligned:
        return []
    return [f"Demand 3 is about aligned accesses; of those that follow these events are not: {', '.join(unaligned)}."]

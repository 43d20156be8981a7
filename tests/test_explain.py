"""Listings in words: over the stored answers of the Rust, and the examples' against golden files."""
from dataclasses import replace
import unittest

from rehearsal.explain.answer import explain
from rehearsal.explain.changes import changes
from rehearsal.explain.show import explained
from rehearsal.machine.listing import without_states
from rehearsal.machine.memory import LostTrack, memory_after
from rehearsal.machine.programs import read_run
from rehearsal.machine.state import NO_ENTRY, start_state
from rehearsal.script.codec import decode
from rehearsal.script.event import STORE
from rehearsal.source import read_source
from tests import walk
from tests.commands import StoredPrograms
from tests.stored import EXAMPLES, GOLDEN, replayed


def stored_runs():
    """Good scripts with their runs."""
    for script, output in replayed():
        if not output.startswith("refused"):
            yield decode(script), read_run(without_states(output), output)


def steps(script, run):
    before = start_state(script.image)
    for event, answer, after in zip(script.events, run.answers, run.states):
        yield event, answer, before, after
        before = after


class Stored(unittest.TestCase):
    def test_every_line_has_words(self):
        lines = 0
        for script, run in stored_runs():
            for event, answer, before, after in steps(script, run):
                said = explain(event, answer, before, after, script.header)
                self.assertTrue(said and "no reason known" not in said)
                self.assertEqual(f"stall {answer.stall}" in said, answer.stall > 0)
                self.assertEqual("walk read" in said, answer.reads > 0)
                lines += 1
        self.assertGreater(lines, 2000)

    def test_page_faults_lie_where_the_walk_says(self):
        faults = 0
        for script, run in stored_runs():
            for k, (event, answer, before, after) in enumerate(steps(script, run)):
                if answer.letter == "X" and answer.value >> 16 == 0x8006:
                    memory = memory_after(script, run.answers[:k], run.states[:k])
                    place = walk.fault_address(memory, script.header.base, before, event)
                    self.assertIn(f"at 0x{place:08X}", explain(event, answer, before, after, script.header))
                    faults += 1
        self.assertGreater(faults, 100)

    def test_memory_is_the_one_whose_digest_is_shown(self):
        for script, run in stored_runs():
            stores = [k for k, event in enumerate(script.events) if event.kind == STORE]
            for k in stores[::4] + [len(script.events) - 1]:
                memory_after(script, run.answers[:k + 1], run.states[:k + 1])

    def test_a_lost_store_is_noticed(self):
        losses = 0
        for script, run in stored_runs():
            if run.states and run.states[-1].memory != start_state(script.image).memory:
                without_stores = [replace(answer, letter="N") for answer in run.answers]
                self.assertRaises(LostTrack, memory_after, script, without_stores, run.states)
                losses += 1
        self.assertGreater(losses, 5)

    def test_changes_are_said_exactly_where_a_state_changes(self):
        for script, run in stored_runs():
            for _, _, before, after in steps(script, run):
                self.assertEqual(bool(changes(before, after)), visible(before) != visible(after))


def visible(state):
    """A state without what an empty slot still holds."""
    return replace(state, tlb=tuple(slot if slot.valid else NO_ENTRY for slot in state.tlb))


class Golden(unittest.TestCase):
    """`python3 -m tests.golden` writes the files again, by the built programs."""

    def test_explained_listings(self):
        for path in sorted(EXAMPLES.glob("*.script")):
            source = read_source(str(path))
            inspected = (GOLDEN / f"{path.stem}.inspected").read_text()
            run = StoredPrograms({source.script: inspected}).run(source.script, 0)
            for suffix, with_state in (("explained", False), ("states", True)):
                with self.subTest(path=path.name, suffix=suffix):
                    self.assertEqual(explained(source, run, with_state), (GOLDEN / f"{path.stem}.{suffix}").read_text())


if __name__ == "__main__":
    unittest.main()

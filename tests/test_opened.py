"""What is open to users, and the premises of demand 3, on small memories."""
from dataclasses import replace
import random
import struct
import unittest

from rehearsal.machine.state import Entry, start_state
from rehearsal.picture.opened import Hidden, Memory, access_of
from rehearsal.picture.opened import hidden_in_open_pages, hidden_in_tables, tables_open_for_writing
from rehearsal.script.tables import Mapping, lay_out
from tests import walk

PAGE = 4096
R, W, X, U = 2, 4, 8, 16
LEVEL1, LEVEL2, PIT, FINISH = range(4)
FINISH_BYTES = Hidden(FINISH * PAGE, (FINISH + 1) * PAGE)


def memory_with(mappings, words=(), pages=4):
    content = bytearray(pages * PAGE)
    tables = lay_out(sorted(Mapping(*mapping) for mapping in mappings), 0)
    content[:len(tables)] = tables
    for address, word in words:
        content[address:address + 4] = struct.pack(">I", word)
    return bytes(content)


def state_with(tlb=(), ptbr=0):
    """A user with translation on."""
    state = start_state(b"")
    slots = tuple(Entry(*slot) for slot in tlb)
    return replace(state, status=7, translation=True, ptbr=ptbr, tlb=slots + state.tlb[len(slots):])


def access(mappings=((5, PIT, R | W | U),), tlb=(), words=(), ptbr=0):
    return access_of(Memory(memory_with(mappings, words), 0), state_with(tlb, ptbr))


def broken(found, hidden=FINISH_BYTES):
    """The numbers of the premises that are broken."""
    faults = (hidden_in_tables(found, hidden), hidden_in_open_pages(found, hidden), tables_open_for_writing(found))
    return [number for number, fault in enumerate(faults, start=1) if list(fault)]


class Premises(unittest.TestCase):
    def test_all_kept(self):
        self.assertEqual(broken(access()), [])

    def test_a_leaf_over_the_hidden_page(self):
        for bits in (R, R | W, X):
            self.assertEqual(broken(access(((5, PIT, R | U), (6, FINISH, bits | U)))), [2])

    def test_a_leaf_without_u_opens_nothing(self):
        self.assertEqual(broken(access(((6, FINISH, R | W | X),))), [])

    def test_a_resident_entry_counts_without_any_leaf(self):
        self.assertEqual(broken(access(tlb=[(True, 9, FINISH, R | U)])), [2])
        self.assertEqual(broken(access(tlb=[(False, 9, FINISH, R | U)])), [])
        self.assertEqual(broken(access(tlb=[(True, 9, FINISH, R)])), [])

    def test_an_entry_behind_an_earlier_one_of_its_page_counts(self):
        self.assertEqual(broken(access(tlb=[(True, 9, PIT, R | U), (True, 9, FINISH, R | U)])), [2])

    def test_pages_at_the_limit_open_nothing(self):
        self.assertEqual(broken(access(tlb=[(True, 0xFFFF0, FINISH, R | U)])), [])
        limit = Hidden(0xFFFF0000, 0xFFFF1000)
        self.assertEqual(broken(access(tlb=[(True, 9, 0xFFFF0, R | U)]), limit), [])
        below = Hidden(0xFFFEF000, 0xFFFF0000)
        self.assertEqual(broken(access(tlb=[(True, 9, 0xFFFEF, R | U)]), below), [2])

    def test_hidden_bytes_in_tables(self):
        self.assertEqual(broken(access(), Hidden(0x0FFF, 0x1000)), [1])
        self.assertEqual(broken(access(), Hidden(0x1FFF, 0x2001)), [1, 2])
        self.assertEqual(broken(access(ptbr=0x3000)), [1])

    def test_a_table_open_for_writing(self):
        self.assertEqual(broken(access(((5, LEVEL2, R | W | U),))), [3])
        self.assertEqual(broken(access(((5, LEVEL1, R | W | U),))), [3])
        self.assertEqual(broken(access(((5, LEVEL2, R | X | U),))), [])

    def test_a_table_outside_the_memory_cannot_be_written(self):
        found = access(words=[(4, 0x9001)], tlb=[(True, 9, 9, R | W | U)])
        self.assertEqual(broken(found), [])
        self.assertEqual(broken(found, Hidden(0x9000, 0x9004)), [1, 2])

    def test_words_that_the_walk_does_not_follow(self):
        for word in (0x3000, 0x3003, 0x3041, 0x3081):
            self.assertEqual(broken(access(words=[(4, word)])), [])
        self.assertEqual(broken(access(words=[(4, 0x3001)])), [1])
        for leaf in (0x3016, 0x3015, 0x3053, 0x3011):
            self.assertEqual(broken(access(words=[(0x1000, leaf)])), [])
        self.assertEqual(broken(access(words=[(0x1000, 0x3F33)])), [2])

    def test_what_is_said(self):
        found = access(((6, FINISH, R | W | U),), tlb=[(True, 6, FINISH, X | U)])
        self.assertEqual(list(hidden_in_open_pages(found, FINISH_BYTES)), [
            "the leaf at 0x1018 opens the page at 0x3000 for reading and writing, as 0x6000",
            "TLB slot 0 opens the page at 0x3000 for fetching, as 0x6000",
        ])
        self.assertEqual(hidden_in_tables(access(), Hidden(0, 0x2000)), [
            "the page at 0x0 is a level-1 table",
            "the page at 0x1000 is a level-2 table",
        ])


class AgainstTheWalk(unittest.TestCase):
    """Every leaf is what a walk of its page finds, and no page with another leaf is missed."""

    def test_random_memories(self):
        for seed in range(20):
            rng = random.Random(seed)
            base = rng.choice((0, 0x8000))
            content = self.random_memory(rng, base)
            found = access_of(Memory(content, base), state_with(ptbr=base))
            entries = [way.entry for ways in found.ways.values() for way in ways]
            leaves = {entry.page: (entry.frame, entry.flags) for entry in entries}
            for page in [*leaves, *(rng.randrange(1 << 20) for _ in range(2000))]:
                walked = walk.walk(content, base, base, page * PAGE)
                self.assertEqual(leaves.get(page), None if isinstance(walked, str) else walked)
            self.assertTrue(leaves)

    def random_memory(self, rng, base):
        content = bytearray(rng.randbytes(3 * PAGE))
        for k in range(0, PAGE, 4):
            named = base + PAGE * rng.randrange(4) + rng.choice((0, 1, 1, 3, 0x41, 0x31, 0xF01))
            content[k:k + 4] = struct.pack(">I", named if rng.random() < 0.1 else 0)
        return bytes(content)


if __name__ == "__main__":
    unittest.main()

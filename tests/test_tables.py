"""Page tables from mappings: the layout of the crate `tables`, and back."""
import random
import struct
import unittest

from rehearsal.script.tables import Mapping, lay_out, recognise
from tests.generate import mappings
from tests.stored import EXAMPLES

PAGE = 4096
BITS = {"R": 2, "W": 4, "X": 8, "U": 16}


class Layout(unittest.TestCase):
    def test_the_pit_list(self):
        """The words that the crate's writer puts at 0x8000 for examples/pit.list."""
        rows = [line.split() for line in (EXAMPLES / "pit.list").read_text().splitlines() if not line.startswith("#")]
        listed = [Mapping(int(page, 16), int(frame, 16), sum(map(BITS.get, letters))) for page, frame, letters in rows]
        written = lay_out(listed, 8)
        words = {0x8000 + 4 * k: word for k, (word,) in enumerate(struct.iter_unpack(">I", written)) if word}
        expected = {0x8000: 0x9001, 0x8004: 0xA001, 0x9000: 0x10019, 0x9004: 0x11017, 0xA000: 0x12013}
        self.assertEqual((words, len(written)), (expected, 3 * PAGE))

    def test_no_mapping_is_an_empty_level_1_table(self):
        self.assertEqual(lay_out([], 5), bytes(PAGE))

    def test_what_is_laid_out_is_recognised(self):
        for seed in range(100):
            listed, base = mappings(random.Random(seed)), 0x10000
            image = b"\x55" * PAGE + lay_out(listed, base // PAGE + 1) + bytes(PAGE)
            self.assertEqual(recognise(image, base, base + PAGE), listed)

    def test_other_bytes_are_no_tables(self):
        image = bytearray(lay_out([Mapping(5, 2, 18)], 0) + bytes(PAGE))
        for place, byte in ((0, 1), (3, 0x41), (7, 1), (PAGE + 23, 0x33), (PAGE + 23, 0x15), (PAGE + 3, 4)):
            changed = bytearray(image)
            changed[place] = byte
            self.assertIsNone(recognise(bytes(changed), 0, 0), f"byte {byte} at {place}")
        self.assertIsNone(recognise(bytes(image), 0, 0x3000))
        self.assertIsNone(recognise(bytes(2 * PAGE), 0, 0))


if __name__ == "__main__":
    unittest.main()

"""Binary to text to binary is the identity on good scripts, text to binary to text on what the disassembler writes."""
import random
import struct
import unittest

from rehearsal.script.codec import Refused, decode
from rehearsal.script.header import script_refusal
from rehearsal.text.assemble import BadText, assemble
from rehearsal.text.disassemble import disassemble
from tests.generate import damaged, good_script
from tests.stored import EXAMPLES, replayed

GENERATED = 300
DAMAGED = 1500


class RoundTrips(unittest.TestCase):
    def assert_round_trip(self, script):
        text = disassemble(decode(script))
        again = assemble(text).script
        self.assertEqual(again.encode(), script, text)
        self.assertEqual(disassemble(again), text)
        return text

    def test_stored_scripts(self):
        good = [script for script, output in replayed() if not output.startswith("refused")]
        self.assertGreater(len(good), 40)
        for script in good:
            self.assert_round_trip(script)

    def test_refusals_are_the_stored_ones(self):
        for script, output in replayed():
            refusal = script_refusal(script)
            self.assertEqual(bool(refusal), output.startswith("refused"))
            if refusal:
                self.assertEqual(output, f"refused {refusal.number}\n")
                self.assertRaises(Refused, decode, script)

    def test_generated_scripts(self):
        with_tables = 0
        for seed in range(GENERATED):
            with self.subTest(seed=seed):
                script = good_script(seed)
                self.assertIsNone(script_refusal(script))
                with_tables += "map " in self.assert_round_trip(script)
        self.assertGreater(with_tables, GENERATED // 20)

    def test_the_largest_script(self):
        rng = random.Random(1)
        header = struct.pack(">6I", 2048, 24, 32768, 24 + 12 * 2048, 0xFFFE8000, 0xFFFFFFFF)
        self.assert_round_trip(header + rng.randbytes(61440 - 24))

    def test_every_kind_size_and_register_number(self):
        register_numbers = [*range(0x100), *range(0x100, 0x10000, 97)]
        for field, values in (("kind", range(0x100)), ("size", range(0x100)), ("aux", register_numbers)):
            for value in values:
                event = {"kind": 6, "size": 0, "aux": 0} | {field: value}
                line = disassemble(assemble("kind {kind} size={size} aux={aux}".format(**event)).script)
                again = assemble(line).script.events[0]
                self.assertEqual({name: getattr(again, name) for name in event}, event)


class DamagedText(unittest.TestCase):
    """Damaged text is an error at a place of the text, or says another good script."""

    def test_damage(self):
        texts = [path.read_text() for path in sorted(EXAMPLES.glob("*.script"))]
        texts += [disassemble(decode(good_script(seed))) for seed in range(30)]
        rng = random.Random(20261115)
        errors = 0
        for case in range(DAMAGED):
            text = damaged(rng.choice(texts), rng)
            with self.subTest(case=case):
                errors += self.errors_of(text)
        self.assertGreater(errors, DAMAGED // 2)

    def errors_of(self, text):
        try:
            script = assemble(text).script.encode()
        except BadText as bad:
            self.assert_places(text, bad.errors)
            return 1
        self.assertIsNone(script_refusal(script))
        self.assertEqual(assemble(disassemble(decode(script))).script.encode(), script)
        return 0

    def assert_places(self, text, errors):
        lines = text.split("\n")
        for error in errors:
            self.assertTrue(1 <= error.line <= len(lines))
            self.assertTrue(1 <= error.column <= len(lines[error.line - 1]) + 1)
            self.assertTrue(error.message)


if __name__ == "__main__":
    unittest.main()

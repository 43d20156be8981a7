"""Every error of the text format, with its line, its column and what it says."""
import unittest

from rehearsal.source import decode_text
from rehearsal.text.assemble import BadText, assemble

MANY = "\n".join(["output"] * 2049)
PAGES = "tables at 0x1000\n" + "\n".join(f"map 0x{page * 4096:X} -> 0x0 ru" for page in range(513))

# Text, line, column, message.
ERRORS = (
    ("\n  lod 4 0x10", 2, 3, "expected an event, a field of the header, or an image line, found 'lod'; is it load?"),
    ("frobnicate", 1, 1, "expected an event, a field of the header, or an image line, found 'frobnicate'"),
    ("load", 1, 5, "expected a size, found the end of the line"),
    ("load 4", 1, 7, "expected an address, found the end of the line"),
    ("load four 0x10", 1, 6, "expected a size, found 'four'"),
    ("load 256 0x10", 1, 6, "expected a size up to 0xFF, found 256"),
    ("load 4 0x100000000", 1, 8, "expected an address up to 0xFFFFFFFF, found 0x100000000"),
    ("load 4 0x", 1, 8, "expected an address, found '0x'"),
    ("load 4 -1", 1, 8, "expected an address, found '-1'"),
    ("load 4 0x10 0x20", 1, 13, "expected the end of the line or one of aux, b with its value, found '0x20'"),
    ("load 4 0x10 a=1", 1, 13, "expected the end of the line or one of aux, b with its value, found 'a'"),
    ("load 4 0x10 b 1", 1, 15, "expected '=', found '1'"),
    ("load 4 0x10 b=", 1, 15, "expected a value for b, found the end of the line"),
    ("load 4 0x10 aux=0x10000", 1, 17, "expected a value for aux up to 0xFFFF, found 0x10000"),
    ("load 4 0x10 b=1 b=2", 1, 17, "expected the end of the line or one of aux, b with its value, found 'b'"),
    ("iret now", 1, 6, "expected the end of the line or one of size, aux, a, b with its value, found 'now'"),
    ("write STATS 0", 1, 7, "expected a system register, found 'STATS'; is it STATUS?"),
    ("write STATUS IE|PUE", 1, 17, "expected a flag of STATUS or a number, found 'PUE'; is it PU?"),
    ("write STATUS IE|1", 1, 17, "'1' has a bit that a part before it has"),
    ("write VCTL ON", 1, 12, "expected EN or a number, found 'ON'"),
    ("write RGN0_FLAGS R|Q", 1, 20, "expected R, W, X or a number, found 'Q'"),
    ("trap 0 page-fault|wrote", 1, 19, "expected an exception, a detail of it or a number, found 'wrote'; is it write?"),
    ("trap 0 syscall long", 1, 16, "expected 'normal' or 'short', found 'long'"),
    ("source 3 up", 1, 10, "expected 'low' or 'high', found 'up'"),
    ("clear 0x10000", 1, 7, "expected a mask of sources up to 0xFFFF, found 0x10000"),
    ("cache-read HITS", 1, 12, "expected a cache register, found 'HITS'; is it I_HITS?"),
    ("cache-write CTRL I_EN|INV", 1, 23, "expected a flag of CTRL or a number, found 'INV'; is it INV_I?"),
    ("set R32 1", 1, 5, "expected a register, R0 to R31, found 'R32'"),
    ("kind 256", 1, 6, "expected a kind's number up to 0xFF, found 256"),
    ("base", 1, 5, "expected an address, found the end of the line"),
    ("base 0x1000\nbase 0x1000", 2, 1, "base stands on line 1 already"),
    ("base 0x1000 0", 1, 13, "expected the end of the line, found '0'"),
    ("base 1", 1, 6, "the base is a multiple of 0x1000, not 0x1"),
    ("base 0xFFFF0000\nimage-length 0x1000", 1, 6, "the memory ends at 0xFFFF0000 at the latest, this one at 0xFFFF1000"),
    ("image-length 100", 1, 14, "an image's length is a multiple of 4096, this one's is 100"),
    ("image-length 0x9000", 1, 14, "an image has at most 32768 bytes, this one 36864"),
    ("bytes 0x8000: 1", 1, 7, "an image has at most 32768 bytes, this one 36864"),
    (MANY, 2049, 1, "a script has at most 2048 events, this one 2049"),
    ("output\nevents-offset 23", 2, 15, "the events would start at 23, inside the header"),
    ("output\nimage-length 0x1000\nimage-offset 30", 3, 14, "the image from 30 to 4126 would overlap the events from 24 to 36"),
    ("output\nscript-length 30", 2, 15, "the events would end at 36, after the script's 30 bytes"),
    ("script-length 23", 1, 15, "a script has 24 to 61440 bytes, this one 23"),
    ("events-offset 70000\noutput", 1, 15, "a script has 24 to 61440 bytes, this one 70012"),
    ("spare 70000: 1\noutput", 1, 7, "a script has 24 to 61440 bytes, this one 70001"),
    ("load 4 " + "9" * 5000, 1, 8, f"expected an address, found '{'9' * 5000}'"),
    ("base 0x1000\nbytes 0xFFF: 1", 2, 7, "0xFFF to 0x1000 is not inside the memory, 0x1000 to 0x1000"),
    ("image-length 0x1000\nwords 0xFFE: 1", 2, 7, "0xFFE to 0x1002 is not inside the memory, 0x0 to 0x1000"),
    ("bytes 0x10 1", 1, 12, "expected ':', found '1'"),
    ("bytes 0x10:", 1, 12, "expected a byte, found the end of the line"),
    ("bytes 0x10: 1 256", 1, 15, "expected a byte up to 0xFF, found 256"),
    ("words 0x10: 1 x", 1, 15, "expected a word of 32 bits, found 'x'"),
    ("spare 10: 1", 1, 7, "expected bytes outside the header and the sections; offset 10 is inside"),
    ("output\nspare 30: 1", 2, 7, "expected bytes outside the header and the sections; offset 30 is inside"),
    ("script-length 30\nspare 29: 1 2", 2, 7, "expected bytes inside the script's 30 bytes; offset 30 is behind them"),
    ("tables 0x1000", 1, 8, "expected 'at', found '0x1000'"),
    ("tables at 0x1001", 1, 11, "expected the address of a page, a multiple of 0x1000, found 0x1001"),
    ("tables at 0x1000 frames", 1, 24, "expected a number of frames, found the end of the line"),
    ("map 0x5000 -> 0x1000 ru", 1, 1, "expected a line 'tables at ADDRESS' before the first map"),
    ("tables at 0\nmap 0x5001 -> 0x1000 ru", 2, 5, "expected the address of a page, a multiple of 0x1000, found 0x5001"),
    ("tables at 0\nmap 0x5000 0x1000 ru", 2, 12, "expected '->', found '0x1000'"),
    ("tables at 0\nmap 0x5000 -> 0x1004 ru", 2, 15, "expected the address of a page, a multiple of 0x1000, found 0x1004"),
    ("tables at 0\nmap 0x5000 -> 0x1000", 2, 21, "expected letters of r, w, x and u, found the end of the line"),
    ("tables at 0\nmap 0x5000 -> 0x1000 rq", 2, 23, "expected letters of r, w, x and u, each once, found 'q'"),
    ("tables at 0\nmap 0x5000 -> 0x1000 rr", 2, 23, "expected letters of r, w, x and u, each once, found 'r'"),
    ("tables at 0\nmap 0x5000 -> 0x1000 wu", 2, 22, "a leaf with w needs r: a walk does not accept w alone"),
    ("tables at 0\nmap 0x5000 -> 0x1000 u", 2, 22, "a leaf needs one of r, w and x"),
    ("tables at 0\nmap 0xFFFF0000 -> 0x1000 ru", 2, 5, "no page at or above 0xFFFF0000 can be mapped"),
    ("tables at 0\nmap 0x5000 -> 0xFFFF0000 ru", 2, 15, "no page at or above 0xFFFF0000 can be mapped"),
    ("tables at 0\nmap 0x5000..0x5000 -> 0x1000 ru", 2, 13, "expected an end above 0x5000, found 0x5000"),
    ("tables at 0\nmap 0x5000..0x6001 -> 0x1000 ru", 2, 13, "expected the address of a page, a multiple of 0x1000, found 0x6001"),
    ("tables at 0\nmap 1..2..3 -> 0x1000 ru", 2, 5, "expected a page or FIRST..END, found '1..2..3'"),
    ("tables at 0\nmap 0x5000 -> 0 ru\nmap 0x5000 -> 0 ru", 3, 5, "page 0x5000 is mapped twice in these tables"),
    ("tables at 0 frames 1\nmap 0x5000 -> 0 ru", 2, 5, "these tables need 2 frames with this page, and have 1"),
    ("image-length 0x1000\ntables at 0\nmap 0x5000 -> 0 ru", 2, 11, "0x0 to 0x2000 is not inside the memory, 0x0 to 0x1000"),
    (PAGES, 514, 5, "tables have at most 512 mappings"),
)


class Errors(unittest.TestCase):
    def test_places_and_messages(self):
        for text, line, column, message in ERRORS:
            with self.subTest(text=text[:60]):
                with self.assertRaises(BadText) as caught:
                    assemble(text)
                error = caught.exception.errors[0]
                self.assertEqual((error.line, error.column, error.message), (line, column, message))

    def test_every_bad_line_is_named(self):
        with self.assertRaises(BadText) as caught:
            assemble("lod\nload 4 0\nstore 4\n")
        self.assertEqual([error.line for error in caught.exception.errors], [1, 3])

    def test_text_that_is_not_utf8(self):
        with self.assertRaises(BadText) as caught:
            decode_text("# é\nload ".encode() + b"\xFF")
        self.assertEqual(str(caught.exception), "2:6: expected text in UTF-8")


class Forms(unittest.TestCase):
    """What is written in several ways is one script."""

    def assert_same(self, first, second):
        self.assertEqual(assemble(first).script.encode(), assemble(second).script.encode())

    def test_numbers_names_and_blanks(self):
        self.assert_same("load 4 0x10", "\tload   4\t16  # a note\r")
        self.assert_same("write STATUS PIE|PU", "write 0 0xA")
        self.assert_same("write status pu|pie", "kind 6 a=10")
        self.assert_same("trap 0x10 page-fault|write|protection short", "trap 16 0x8006000A 1")
        self.assert_same("source 3 high", "source 3 1")
        self.assert_same("bytes 0x10: 0 1 2 3", "words 0x10:0x00010203")

    def test_a_later_line_writes_over_an_earlier_one(self):
        self.assert_same("words 0x10: 1\nwords 0x10: 2", "words 0x10: 2")

    def test_pages_in_a_row(self):
        single = "tables at 0\nmap 0x6000 -> 0x3000 ru\nmap 0x5000 -> 0x2000 ur"
        self.assert_same("tables at 0\nmap 0x5000..0x7000 -> 0x2000 ru", single)

    def test_notes_and_headings(self):
        text = assemble("# plain\n## First\nload 4 0 # why\noutput\n## Last\n")
        self.assertEqual(text.notes, ["why", ""])
        self.assertEqual(text.headings, {0: ["First"], 2: ["Last"]})


if __name__ == "__main__":
    unittest.main()

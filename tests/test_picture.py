"""Pictures: their verdicts, their options, and that every stored state can be drawn."""
import unittest

from rehearsal.cli import BROKEN, CANNOT, DONE
from tests.commands import OVERLAP, PIT, CommandLine
from tests.stored import replayed

LATE = "rehearse: --after 43: the script's last event is 42\n"


class Pictures(CommandLine):
    def picture(self, *arguments):
        page = self.folder / "page.html"
        status, out, err = self.call("picture", *arguments, "-o", page)
        return status, out, page.read_text() if page.exists() else err

    def test_premises_kept(self):
        status, out, page = self.picture(PIT, "--after", 23, "--hidden", "0x7000..0x8000")
        self.assertEqual(status, DONE)
        self.assertNotIn("broken", out)
        self.assertEqual(page.count("<b>kept</b>"), 4)
        self.assertNotIn("http", page)

    def test_a_premise_broken(self):
        status, out, page = self.picture(OVERLAP, "--hidden", "0x7000..0x8000")
        self.assertEqual(status, BROKEN)
        self.assertIn("broken: 2. No byte of 0x7000..0x8000 lies in a page that is open to users\n", out)
        self.assertIn("the leaf at 0x2084 opens the page at 0x7000 for reading and writing, as 0x21000", page)

    def test_the_start_and_ends(self):
        status, out, _ = self.picture(PIT, "--after", "start")
        self.assertEqual(status, BROKEN)
        self.assertIn("before the first event; supervisor mode", out)
        self.assertIn("broken: The task runs in user mode with translation on\n", out)
        self.assertIn("after event 42: load 4 0x20004", self.picture(PIT)[1])
        self.assertEqual(self.call("picture", PIT, "--after", 43, "-o", self.folder / "no"), (CANNOT, "", LATE))

    def test_bad_ranges(self):
        for text in ("0x7000", "0x8000..0x7000", "0x7000..0x7000", "a..b", "0..0x100000001"):
            status, _, err = self.call("picture", PIT, "-o", self.folder / "no", "--hidden", text)
            self.assertEqual(status, CANNOT)
            self.assertIn("expected A..B", err)

    def test_pictures_of_all_stored_scripts(self):
        for script, output in replayed():
            if not output.startswith("refused"):
                status, out, page = self.picture(self.write("script", script), "--hidden", "0..0x100000000")
                self.assertIn(status, (DONE, BROKEN))
                self.assertEqual(page.count("<div"), page.count("</div>"))
                self.assertEqual(page.count("<li"), page.count("</li>"))


if __name__ == "__main__":
    unittest.main()

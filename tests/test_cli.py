"""Commands: what they print and write, and their exit statuses."""
import io
import unittest

from rehearsal.cli import BAD_TEXT, CANNOT, DONE, REFUSED, SUMMARIES
from rehearsal.machine.progress import PATIENCE, Progress
from tests.commands import PIT, CommandLine
from tests.stored import GOLDEN, ROOT, replayed

WHOLE_CASE = ROOT / "crates" / "runner"


class Commands(CommandLine):
    def test_help_everywhere(self):
        for arguments in (["--help"], *([command, "--help"] for command in SUMMARIES)):
            status, out, _ = self.call(*arguments)
            self.assertEqual(status, DONE)
            self.assertIn("exit status:", out)

    def test_bad_usage(self):
        for arguments in ([], ["--nothing"], [PIT, "--nothing"], ["assemble", PIT], ["demo", "--plain", "--state"]):
            status, _, err = self.call(*arguments)
            self.assertEqual(status, CANNOT)
            self.assertIn("usage:", err)

    def test_a_file_that_is_not_there(self):
        status, _, err = self.call(self.folder / "none")
        self.assertEqual((status, err), (CANNOT, f"rehearse: {self.folder / 'none'}: No such file or directory\n"))

    def test_demo_and_files(self):
        golden = (GOLDEN / "pit_goes_wrong.explained").read_text()
        for arguments in (["demo"], [PIT], ["run", PIT], ["--as", "text", PIT]):
            self.assertEqual(self.call(*arguments), (DONE, golden, ""))
        self.assertEqual(self.call("demo", "--state")[1], (GOLDEN / "pit_goes_wrong.states").read_text())

    def test_plain_is_the_runners_listing(self):
        listing = (WHOLE_CASE / "stdout").read_text()
        self.assertEqual(self.call(WHOLE_CASE / "stdin", "--plain"), (DONE, listing, ""))

    def test_refused_scripts(self):
        for script, output in replayed():
            if output.startswith("refused"):
                path = self.write("refused", script)
                status, out, err = self.call(path, "--as", "binary")
                self.assertEqual((status, out, err.split(":")[0] + "\n"), (REFUSED, "", output))
                self.assertEqual(self.call(path, "--plain", "--as", "binary"), (REFUSED, output, ""))
                self.assertEqual(self.call("disassemble", path, "--as", "binary")[0], REFUSED)

    def test_bad_text(self):
        path = self.write("bad", "load 4 0x10\nlod 4 0x10\nload 4 x\n")
        out_there = ["-o", self.folder / "out"]
        for arguments in ([path], ["assemble", path, *out_there], ["picture", path, *out_there], ["disassemble", path]):
            status, out, err = self.call(*arguments)
            self.assertEqual((status, out), (BAD_TEXT, ""))
            self.assertEqual([line.split(" ")[0] for line in err.splitlines()], [f"{path}:2:1:", f"{path}:3:8:"])
        self.assertFalse((self.folder / "out").exists())

    def test_assemble_and_disassemble(self):
        binary, text, again = (self.folder / name for name in ("binary", "text", "again"))
        self.assertEqual(self.call("assemble", PIT, "-o", binary), (DONE, "", ""))
        self.assertEqual(self.call("disassemble", binary, "-o", text), (DONE, "", ""))
        self.assertEqual(self.call("disassemble", binary)[1], text.read_text())
        self.assertEqual(self.call("disassemble", PIT)[1], text.read_text())
        self.assertEqual(self.call("assemble", text, "-o", again), (DONE, "", ""))
        self.assertEqual(binary.read_bytes(), again.read_bytes())
        self.assertIn("map 0x20000 -> 0x7000 rwu\n", text.read_text())


class Terminal(io.StringIO):
    def isatty(self):
        return True


class Progresses(unittest.TestCase):
    def shown(self, stream, seconds):
        clock = iter(seconds)
        progress = Progress(stream, lambda: next(clock))
        progress.show("event 7 of 2048")
        progress.clear()
        return stream.getvalue()

    def test_long_runs_on_a_terminal(self):
        self.assertIn("event 7 of 2048", self.shown(Terminal(), [0, PATIENCE + 1, PATIENCE + 1]))

    def test_nothing_in_quick_runs(self):
        self.assertEqual(self.shown(Terminal(), [0, PATIENCE / 2]), "")

    def test_nothing_when_piped(self):
        self.assertEqual(self.shown(io.StringIO(), [0]), "")


if __name__ == "__main__":
    unittest.main()

"""Building: what is said while it takes time, and what is said when it fails."""
from contextlib import redirect_stderr
import io
from pathlib import Path
import unittest
from unittest.mock import patch

from rehearsal.machine import build
from rehearsal.machine.programs import printed


class Builds(unittest.TestCase):
    def build(self, *command, there):
        """What is printed and what is raised, with programs that are there or not."""
        err, path = io.StringIO(), Path("/bin/cat" if there else "/nowhere/cat")
        with patch.multiple(build, COMMAND=command, program=lambda name: path), redirect_stderr(err):
            try:
                build.build()
                return err.getvalue(), None
            except build.CannotRun as error:
                return err.getvalue(), str(error)

    def test_nothing_is_said_where_nothing_is_to_do(self):
        self.assertEqual(self.build("true", there=True), ("", None))

    def test_the_first_build_is_announced(self):
        said, _ = self.build("sleep", "0.3", there=False)
        self.assertEqual(said, f"{build.FIRST}\n{build.TIME}\n")

    def test_a_long_check_is_a_build(self):
        with patch.object(build, "PATIENCE", 0.1):
            self.assertEqual(self.build("sleep", "0.5", there=True), (f"{build.AGAIN}\n{build.TIME}\n", None))

    def test_a_failed_build_shows_what_the_kit_said(self):
        _, error = self.build("sh", "-c", "echo rt: mmu is not proved; exit 1", there=True)
        self.assertEqual(error, "the programs cannot be built:\nrt: mmu is not proved")

    def test_without_the_kit(self):
        self.assertEqual(self.build("no-such-kit", there=True), ("", None))
        self.assertIn("crates/runner/out/runner is missing", self.build("no-such-kit", there=False)[1])


class Streams(unittest.TestCase):
    def test_what_a_program_prints(self):
        with patch("rehearsal.machine.programs.program", lambda name: Path("/bin/cat")):
            self.assertEqual(printed("cat", b"end 0\n" * 20000), "end 0\n" * 20000)

    def test_a_program_that_fails(self):
        with patch("rehearsal.machine.programs.program", lambda name: Path("/bin/false")):
            self.assertRaisesRegex(build.CannotRun, "false stopped with status 1", printed, "false", bytes(100000))


if __name__ == "__main__":
    unittest.main()

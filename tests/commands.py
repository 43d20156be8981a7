"""Commands called as a user gives them, over stored programs."""
from contextlib import redirect_stderr, redirect_stdout
import io
from pathlib import Path
import tempfile
import unittest

from rehearsal.cli import main
from rehearsal.machine.listing import without_states
from rehearsal.machine.programs import read_run
from rehearsal.source import read_source
from tests.stored import EXAMPLES, GOLDEN, replayed

PIT, OVERLAP = (str(EXAMPLES / f"{name}.script") for name in ("pit_goes_wrong", "overlap"))


class StoredPrograms:
    """Stands in for the programs: it knows the output of some scripts."""

    def __init__(self, known):
        self.known = dict(known)

    def listing(self, script):
        return without_states(self.known[script])

    def run(self, script, count):
        return read_run(self.listing(script), self.known[script])


def examples():
    """The examples' scripts with their stored outputs."""
    paths = sorted(EXAMPLES.glob("*.script"))
    return [(read_source(str(path)).script, (GOLDEN / f"{path.stem}.inspected").read_text()) for path in paths]


class CommandLine(unittest.TestCase):
    """Calls commands over the stored programs."""

    @classmethod
    def setUpClass(cls):
        cls.programs = StoredPrograms([*replayed(), *examples()])

    def setUp(self):
        folder = tempfile.TemporaryDirectory()
        self.addCleanup(folder.cleanup)
        self.folder = Path(folder.name)

    def call(self, *arguments):
        """The exit status, and what was printed."""
        out, err = io.StringIO(), io.StringIO()
        with redirect_stdout(out), redirect_stderr(err):
            try:
                status = main([str(argument) for argument in arguments], self.programs)
            except SystemExit as stop:
                status = stop.code
        return status, out.getvalue(), err.getvalue()

    def write(self, name, content):
        path = self.folder / name
        path.write_bytes(content if isinstance(content, bytes) else content.encode())
        return path

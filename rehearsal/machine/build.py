"""Building the proved programs: by the kit, which proves and compiles what has changed since it was last asked."""
from pathlib import Path
import shutil
import subprocess
import sys
import threading
import time

from rehearsal.machine.progress import Progress

ROOT = Path(__file__).resolve().parents[2]
NAMES = ("runner", "inspect")
# In a program's folder it proves and compiles what has changed, and then runs the program, here on no input.
COMMAND = ("rt", "run")
FIRST = "rehearse: building once with `rt run` in crates/runner and crates/inspect, which proves the machine and compiles it:"
AGAIN = "rehearse: what the programs are made of has changed; building again with `rt run` in crates/runner and crates/inspect:"
TIME = "          many minutes where nothing of it was proved before"
PATIENCE = 20.0
PAUSE = 0.1


class CannotRun(Exception):
    """A program cannot be built or run, and why."""


def program(name):
    return ROOT / "crates" / name / "out" / name


def missing():
    return [name for name in NAMES if not program(name).exists()]


def build():
    """Where nothing has changed the kit sees that in a moment. Without the kit, programs that are there are used."""
    if shutil.which(COMMAND[0]):
        Build().run()
    if missing():
        lacking = missing()[0]
        raise CannotRun(f"crates/{lacking}/out/{lacking} is missing, and it takes the Rattle kit (`rt`) to build it")


class Build:
    """A run of the kit for each program. It says so at once if a program is missing, else if it takes more than a moment."""

    def __init__(self):
        self.said = []
        self.progress = Progress()
        self.text, self.patience = (FIRST, 0) if missing() else (AGAIN, PATIENCE)
        self.noticed = False
        self.start = time.monotonic()

    def run(self):
        for name in NAMES:
            self.run_one(ROOT / "crates" / name)

    def run_one(self, folder):
        pipes = {"stdin": subprocess.DEVNULL, "stdout": subprocess.PIPE, "stderr": subprocess.STDOUT, "text": True}
        with subprocess.Popen(COMMAND, cwd=folder, **pipes) as process:
            reader = threading.Thread(target=lambda: self.said.extend(process.stdout))
            reader.start()
            self.wait(process)
            reader.join()
        if process.returncode:
            raise CannotRun("the programs cannot be built:\n" + "".join(self.said[-20:]).rstrip())

    def wait(self, process):
        while process.poll() is None:
            elapsed = time.monotonic() - self.start
            self.notice(elapsed)
            self.progress.show(f"  {elapsed:.0f} s, {self.proved()} functions proved")
            time.sleep(PAUSE)
        self.progress.clear()

    def notice(self, elapsed):
        if elapsed >= self.patience and not self.noticed:
            self.progress.clear()
            print(self.text, TIME, sep="\n", file=sys.stderr, flush=True)
            self.noticed = True

    def proved(self):
        return sum(line.startswith("fn ") and line.rstrip().endswith(": proved") for line in self.said)

"""A run of the proved programs on a script: the runner's listing, and the states that `inspect` adds to it."""
from concurrent.futures import ThreadPoolExecutor, wait
from dataclasses import dataclass
import subprocess
import threading
import time

from rehearsal.machine.build import CannotRun, build, program
from rehearsal.machine.listing import answers, refused_number, states, without_states
from rehearsal.machine.progress import Progress

PAUSE = 0.1


@dataclass
class Run:
    """What the programs said: the listing, its answers and the state after each."""

    listing: str
    answers: list
    states: list

    @property
    def refused(self):
        return refused_number(self.listing)


class Programs:
    """The programs of this repository, built where that is needed. A long run shows on a terminal how far it is."""

    def __init__(self):
        self.built = False

    def build(self):
        """Once is enough, however many scripts are run."""
        if not self.built:
            build()
            self.built = True

    def listing(self, script):
        self.build()
        with ThreadPoolExecutor() as pool:
            return awaited(pool.submit(printed, "runner", script))

    def run(self, script, count):
        """Both programs side by side. The listing that is shown is the runner's; the other must say the same."""
        self.build()
        with ThreadPoolExecutor() as pool:
            listing = pool.submit(printed, "runner", script)
            inspected = self.inspected(script, count)
            return read_run(awaited(listing), inspected)

    def inspected(self, script, count):
        """The listing with its states, which come event by event."""
        progress, lines = Progress(), []
        for line in stream("inspect", script):
            lines.append(line)
            if not line.startswith("S "):
                progress.show(f"event {line.split(' ', 1)[0]} of {count}")
        progress.clear()
        return "".join(lines)


def printed(name, script):
    return "".join(stream(name, script))


def awaited(future):
    """The runner prints nothing before its end, so the time has to do."""
    progress, start = Progress(), time.monotonic()
    while not future.done():
        wait([future], timeout=PAUSE)
        progress.show(f"running, {time.monotonic() - start:.0f} s")
    progress.clear()
    return future.result()


def read_run(listing, inspected):
    if without_states(inspected) != listing:
        raise CannotRun("runner and inspect print different listings of this script")
    if refused_number(listing) is not None:
        return Run(listing, [], [])
    return Run(listing, answers(listing), states(inspected))


def stream(name, script):
    """A program's lines as they come."""
    with subprocess.Popen([program(name)], stdin=subprocess.PIPE, stdout=subprocess.PIPE) as process:
        feeder = threading.Thread(target=feed, args=(process.stdin, script))
        feeder.start()
        for line in process.stdout:
            yield line.decode("ascii")
        feeder.join()
    if process.returncode:
        raise CannotRun(f"{name} stopped with status {process.returncode}")


def feed(pipe, script):
    """A program that has read enough may close its end."""
    try:
        pipe.write(script)
        pipe.close()
    except BrokenPipeError:
        pass

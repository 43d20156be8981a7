"""The program `runner` as it is given its input: at the edges of a script's length, refused, whole, in pieces, and where reading or
writing fails. It needs the built program, and builds it where that is needed, so the gate runs it behind `rt ci`:

    python3 -m unittest tests.programs
"""
import struct
import subprocess
import tempfile
import unittest

from rehearsal.machine.build import build, program

RUNNER = program("runner")
HEADER, EVENT = 24, 12
LONGEST, MOST = 61440, 2048
OUTPUT, NO_KIND = 14, 16


def script(events=0, events_at=HEADER, image=0, image_at=HEADER, base=0, penalty=0, kind=OUTPUT, length=0):
    """A script whose events are all of one kind, with zeros behind them up to a length."""
    header = struct.pack(">6I", events, events_at, image, image_at, base, penalty)
    body = header + bytes([kind] + [0] * (EVENT - 1)) * min(events, MOST)
    return body + bytes(max(0, length - len(body)))


def run(given):
    return subprocess.run([RUNNER], input=given, capture_output=True, timeout=60)


def setUpModule():
    build()


class Runner(unittest.TestCase):
    def prints(self, given, text):
        done = run(given)
        self.assertEqual(done.stderr, b"")
        # of long texts the first line that differs, and no comparison of all
        for line, wanted in zip(done.stdout.decode().splitlines(), text.splitlines()):
            self.assertEqual(line, wanted)
        self.assertEqual(len(done.stdout), len(text))

    def test_a_script_that_is_too_short(self):
        self.prints(b"", "refused 4\n")
        self.prints(bytes(HEADER - 1), "refused 4\n")

    def test_the_shortest_script(self):
        self.prints(bytes(HEADER), "end 0\n")

    def test_the_longest_script(self):
        self.prints(script(length=LONGEST), "end 0\n")

    def test_scripts_that_are_too_long(self):
        for length in (LONGEST + 1, 65535, 65536, 200_000):
            self.prints(script(length=length), "refused 4\n")

    def test_each_refusal_of_a_script(self):
        self.prints(script(events=MOST + 1, length=LONGEST), "refused 4\n")
        self.prints(script(image=4095, length=HEADER + 4096), "refused 4\n")
        self.prints(script(image=4096, base=1, length=HEADER + 4096), "refused 2\n")
        self.prints(script(image=4096, base=0xFFFF0000, length=HEADER + 4096), "refused 2\n")
        self.prints(script(events=1, events_at=HEADER - 1), "refused 5\n")
        self.prints(script(image=4096, length=HEADER + 4095), "refused 5\n")

    def test_a_refused_event_is_a_line(self):
        self.prints(script(events=1, kind=NO_KIND), "0 N 00000006 0 0\nend 1\n")

    def test_the_most_events(self):
        lines = "".join(f"{i} V 00000000 0 0\n" for i in range(MOST))
        self.prints(script(events=MOST), f"{lines}end {MOST}\n")

    def test_input_in_pieces(self):
        given = script(events=3)
        with subprocess.Popen([RUNNER], stdin=subprocess.PIPE, stdout=subprocess.PIPE) as process:
            for at in range(0, len(given), 7):
                process.stdin.write(given[at : at + 7])
                process.stdin.flush()
            process.stdin.close()
            self.assertEqual(process.stdout.read(), run(given).stdout)

    def test_input_that_cannot_be_read(self):
        """Reading a directory fails: nothing is judged."""
        with tempfile.TemporaryDirectory() as folder:
            given = subprocess.run(["sh", "-c", '"$0" < "$1"', RUNNER, folder], capture_output=True, timeout=60)
        self.assertEqual((given.stdout, given.stderr), (b"", b"runner: the script could not be read to its end\n"))

    def test_a_listing_that_cannot_be_written(self):
        done = subprocess.run(["sh", "-c", '"$0" > /dev/full', RUNNER], input=bytes(HEADER), capture_output=True, timeout=60)
        self.assertEqual(done.stderr, b"runner: the listing could not be written whole\n")


if __name__ == "__main__":
    unittest.main()

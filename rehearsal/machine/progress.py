"""A line that says how far a long run is: on a terminal alone, and only after a while."""
import sys
import time

PATIENCE = 1.0
PAUSE = 0.1


class Progress:
    def __init__(self, stream=sys.stderr, clock=time.monotonic):
        self.stream = stream
        self.clock = clock
        self.next = clock() + PATIENCE
        self.width = 0

    def show(self, text):
        """Shows a text in place of the last one. Quick runs show nothing."""
        if not self.stream.isatty() or self.clock() < self.next:
            return
        self.next = self.clock() + PAUSE
        self.stream.write("\r" + text.ljust(self.width))
        self.stream.flush()
        self.width = len(text)

    def clear(self):
        if self.width:
            self.stream.write("\r" + " " * self.width + "\r")
            self.stream.flush()
            self.width = 0

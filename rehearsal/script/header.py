"""A script's header: its words in one place, the limits, and which number refuses a script.

A further word is a further field of `Header`: `length`, `encode` and `decode` have to know what announces it, and what
it may hold is one more test in `header_refusal`. In a text it is one more row of `FIELDS` (rehearsal/text/fields.py),
which `header_of` (rehearsal/text/layout.py) puts into the header.
"""
from dataclasses import astuple, dataclass, fields
import struct

MOST_EVENTS = 2048
LARGEST_IMAGE = 32768
LONGEST_SCRIPT = 61440
PAGE = 4096
RESERVED = 0xFFFF0000
EVENT_LENGTH = 12


@dataclass(frozen=True)
class Header:
    """The header's words in their order, each four bytes, highest first."""

    event_count: int
    events_offset: int
    image_length: int
    image_offset: int
    base: int
    penalty: int

    @property
    def length(self):
        return SHORTEST_HEADER

    def encode(self):
        return struct.pack(LAYOUT, *astuple(self))

    @staticmethod
    def decode(script):
        return Header(*struct.unpack_from(LAYOUT, script))

    @property
    def events(self):
        return Section("events", self.events_offset, EVENT_LENGTH * self.event_count)

    @property
    def image(self):
        return Section("image", self.image_offset, self.image_length)


LAYOUT = f">{len(fields(Header))}I"
SHORTEST_HEADER = struct.calcsize(LAYOUT)


@dataclass(frozen=True)
class Section:
    """A part of the script. An empty one is nowhere, so its offset is not looked at."""

    name: str
    start: int
    length: int

    @property
    def end(self):
        return self.start + self.length

    def holds(self, offset):
        return self.start <= offset < self.end

    def bytes_of(self, script):
        return script[self.start:self.end] if self.length else b""


@dataclass(frozen=True)
class Refusal:
    """The number, the word of the header that is at fault ('script_length' for the whole), and why."""

    number: int
    word: str
    reason: str


def refusal(length, header):
    """Why a script of so many bytes with this header is refused, or None. The order is 4, 2, 5."""
    header_first = length_refusal(length) or header_refusal(header)
    return header_first or map_refusal(header) or section_refusal(length, header)


def script_refusal(script):
    """The same of a script's bytes."""
    return length_refusal(len(script)) or refusal(len(script), Header.decode(script))


def length_refusal(length):
    if SHORTEST_HEADER <= length <= LONGEST_SCRIPT:
        return None
    return Refusal(4, "script_length", f"a script has {SHORTEST_HEADER} to {LONGEST_SCRIPT} bytes, this one {length}")


def header_refusal(header):
    if header.event_count > MOST_EVENTS:
        return Refusal(4, "event_count", f"a script has at most {MOST_EVENTS} events, this one {header.event_count}")
    length = header.image_length
    if length > LARGEST_IMAGE:
        return Refusal(4, "image_length", f"an image has at most {LARGEST_IMAGE} bytes, this one {length}")
    if length % PAGE:
        return Refusal(4, "image_length", f"an image's length is a multiple of {PAGE}, this one's is {length}")
    return None


def map_refusal(header):
    if header.base % PAGE:
        return Refusal(2, "base", f"the base is a multiple of 0x{PAGE:X}, not 0x{header.base:X}")
    end = header.base + header.image_length
    if end > RESERVED:
        return Refusal(2, "base", f"the memory ends at 0x{RESERVED:X} at the latest, this one at 0x{end:X}")
    return None


def section_refusal(length, header):
    events, image = header.events, header.image
    outside = bounds_refusal(length, header, events) or bounds_refusal(length, header, image)
    return outside or overlap_refusal(events, image)


def bounds_refusal(length, header, section):
    word, name = f"{section.name}_offset", section.name
    if section.length and section.start < header.length:
        return Refusal(5, word, f"the {name} would start at {section.start}, inside the header")
    if section.length and section.end > length:
        return Refusal(5, word, f"the {name} would end at {section.end}, after the script's {length} bytes")
    return None


def overlap_refusal(events, image):
    if not events.length or not image.length or events.start >= image.end or image.start >= events.end:
        return None
    reason = f"the image from {image.start} to {image.end} would overlap the events from {events.start} to {events.end}"
    return Refusal(5, "image_offset", reason)

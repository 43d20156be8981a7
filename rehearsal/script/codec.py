"""A good script, taken apart and put together again, to the byte."""
from dataclasses import dataclass, field

from rehearsal.script.event import Event, decode_all
from rehearsal.script.header import Header, script_refusal


class Refused(Exception):
    """The script would be refused by the runner."""

    def __init__(self, refusal):
        super().__init__(refusal.reason)
        self.refusal = refusal


@dataclass
class Script:
    """`spare` are the bytes other than 0 in no section, by their offset; `length` is the whole script's."""

    header: Header
    events: list[Event]
    image: bytes
    length: int
    spare: dict[int, int] = field(default_factory=dict)

    def encode(self):
        script = bytearray(self.length)
        script[:self.header.length] = self.header.encode()
        for section, content in self.sections():
            if section.length:
                script[section.start:section.end] = content
        for offset, byte in self.spare.items():
            script[offset] = byte
        return bytes(script)

    def sections(self):
        """Both sections with their bytes."""
        events = b"".join(event.encode() for event in self.events)
        return (self.header.events, events), (self.header.image, self.image)


def decode(script):
    """Takes a good script apart; raises `Refused` with the runner's number where it is not one."""
    refusal = script_refusal(script)
    if refusal:
        raise Refused(refusal)
    header = Header.decode(script)
    behind = enumerate(script[header.length:], start=header.length)
    spare = {offset: byte for offset, byte in behind if byte and is_spare(header, offset)}
    events = decode_all(header.events.bytes_of(script))
    return Script(header, events, header.image.bytes_of(script), len(script), spare)


def is_spare(header, offset):
    """Whether a byte behind the header is in no section."""
    return not header.events.holds(offset) and not header.image.holds(offset)

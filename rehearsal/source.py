"""What a file holds: a script, as bytes or as text."""
from dataclasses import dataclass, field
from pathlib import Path
import sys

from rehearsal.script.codec import decode
from rehearsal.text.assemble import BadText, assemble
from rehearsal.text.words import TextError


@dataclass
class Source:
    """A script's bytes, what a text says beside its events, and the name that errors use."""

    name: str
    script: bytes
    notes: list[str] = field(default_factory=list)
    headings: dict[int, list[str]] = field(default_factory=dict)

    def decoded(self):
        return decode(self.script)

    def note(self, index):
        return self.notes[index] if index < len(self.notes) else ""


def read_file(path):
    """`-` is standard input."""
    return sys.stdin.buffer.read() if path == "-" else Path(path).read_bytes()


def is_text(content):
    """A good script's first byte is its event count's highest and no letter; a text has no byte 0."""
    return b"\0" not in content


def read_source(path, form=None):
    """`form` is 'text' or 'binary'; without it the content decides."""
    content = read_file(path)
    if form == "binary" or (form is None and not is_text(content)):
        return Source(path, content)
    return text_source(path, content)


def text_source(name, content):
    text = assemble(decode_text(content))
    return Source(name, text.script.encode(), text.notes, text.headings)


def decode_text(content):
    try:
        return content.decode("utf-8-sig")
    except UnicodeDecodeError as error:
        before = content[:error.start].decode("utf-8")
        line, column = before.count("\n") + 1, len(before) - before.rfind("\n")
        raise BadText([TextError(line, column, "expected text in UTF-8")]) from None

"""What the lines of a text say, each thing with the word that says it."""
from dataclasses import dataclass, field

from rehearsal.language.formats import Number, found
from rehearsal.language.forms import BY_NAME, OTHER_FIELDS, Form
from rehearsal.script.event import FIELD_BITS, Event
from rehearsal.text.fields import FIELDS
from rehearsal.text.image import Piece, Tables, read_bytes, read_map, read_spare, read_tables, read_words
from rehearsal.text.words import Word

KIND = Number("a kind's number", FIELD_BITS["kind"], str)
FIELD_FORMATS = {name: Number(f"a value for {name}", bits) for name, bits in FIELD_BITS.items()}


@dataclass
class Said:
    """What has been read so far. `tables` is the set that a `map` line belongs to."""

    fields: dict[str, tuple[Word, int]] = field(default_factory=dict)
    pieces: list[Piece | Tables] = field(default_factory=list)
    spare: list[Piece] = field(default_factory=list)
    tables: Tables | None = None
    events: list[Event] = field(default_factory=list)
    event_words: list[Word] = field(default_factory=list)
    notes: list[str] = field(default_factory=list)
    headings: dict[int, list[str]] = field(default_factory=dict)

    def value(self, name, default):
        """A header field's value, or its default."""
        return self.fields[name][1] if name in self.fields else default


def read_line(said, line):
    if not line.more():
        read_heading(said, line)
        return
    first = line.take("a line's first word")
    if first.text in FIELDS:
        read_field(said, line, first)
    elif first.text in BY_NAME or first.text == "kind":
        read_event(said, line, first)
    elif first.text in IMAGE_LINES:
        IMAGE_LINES[first.text](said, line, first)
    else:
        keywords = (*FIELDS, *BY_NAME, "kind", *IMAGE_LINES)
        raise first.error(f"expected an event, a field of the header, or an image line, {found(first.text, keywords)}")
    line.finish()


def read_heading(said, line):
    """A line of two # and a text is shown before the next event."""
    if line.comment and line.comment.startswith("#"):
        said.headings.setdefault(len(said.events), []).append(line.comment[1:].strip())


def read_field(said, line, first):
    if first.text in said.fields:
        raise first.error(f"{first.text} stands on line {said.fields[first.text][0].line} already")
    said.fields[first.text] = line.read(FIELDS[first.text])


# ---- the image

def add_bytes(said, line, first):
    said.pieces.append(read_bytes(line))


def add_words(said, line, first):
    said.pieces.append(read_words(line))


def add_spare(said, line, first):
    said.spare.append(read_spare(line))


def add_tables(said, line, first):
    said.tables = read_tables(line)
    said.pieces.append(said.tables)


def add_map(said, line, first):
    if said.tables is None:
        raise first.error("expected a line 'tables at ADDRESS' before the first map")
    read_map(line, said.tables)


IMAGE_LINES = {"bytes": add_bytes, "words": add_words, "spare": add_spare, "tables": add_tables, "map": add_map}


# ---- events

def read_event(said, line, first):
    form = Form("kind", line.read(KIND)[1]) if first.text == "kind" else BY_NAME[first.text]
    fields = {"kind": form.kind}
    for operand in form.operands:
        if operand.default is None or (line.more() and not line.second_is("=")):
            fields[operand.field] = line.read(operand.format_for(fields))[1]
    while line.more():
        read_assignment(line, form, fields)
    said.events.append(Event(**fields))
    said.event_words.append(first)
    said.notes.append((line.comment or "").strip())


def read_assignment(line, form, fields):
    """`FIELD=VALUE`, for a field that the kind does not use."""
    name = line.take("a field")
    free = [unused for unused in OTHER_FIELDS if unused not in form.fields]
    if name.text not in free or name.text in fields:
        expected = f"the end of the line or one of {', '.join(free)} with its value"
        raise name.error(f"expected {expected}, found '{name.text}'")
    line.take_symbol("=")
    fields[name.text] = line.read(FIELD_FORMATS[name.text])[1]

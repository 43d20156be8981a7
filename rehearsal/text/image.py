"""The lines of a text that fill the memory: bytes, words, and page tables from mappings."""
from dataclasses import dataclass, field

from rehearsal.language import names
from rehearsal.language.formats import Number
from rehearsal.script.header import PAGE
from rehearsal.script.tables import MOST_MAPPINGS, Mapping, bits_fault, frames_needed, lay_out, page_fault
from rehearsal.text.words import Word, read_word

BYTE = Number("a byte", 8)
WORD = Number("a word of 32 bits", 32)
FRAMES = Number("a number of frames", 32, str)
OFFSET = Number("an offset in the script", 32)


@dataclass
class Piece:
    """Bytes at an address, or at an offset, and the word that says where."""

    where: Word
    start: int
    content: bytes

    @property
    def end(self):
        return self.start + len(self.content)


@dataclass
class Tables:
    """A set of page tables, which the `map` lines below it fill."""

    where: Word
    start: int
    frames: int | None
    mappings: dict[int, Mapping] = field(default_factory=dict)

    @property
    def content(self):
        return lay_out(sorted(self.mappings.values()), self.start // PAGE)

    @property
    def end(self):
        return self.start + PAGE * frames_needed(self.mappings.values())


def read_piece(line, place, value):
    """`PLACE: VALUE...`, each value in as many bytes as its format has."""
    where, start = line.read(place)
    line.take_symbol(":")
    content = bytearray()
    while True:
        content += line.read(value)[1].to_bytes(value.bits // 8, "big")
        if not line.more():
            return Piece(where, start, bytes(content))


def read_bytes(line):
    return read_piece(line, names.ADDRESS, BYTE)


def read_words(line):
    return read_piece(line, names.ADDRESS, WORD)


def read_spare(line):
    return read_piece(line, OFFSET, BYTE)


def read_tables(line):
    """`at ADDRESS [frames N]`."""
    line.take_symbol("at")
    where, start = read_page(line)
    frames = None
    if line.next_is("frames"):
        line.take_symbol("frames")
        frames = line.read(FRAMES)[1]
    return Tables(where, start * PAGE, frames)


def read_page(line):
    """The address of a page: the word, and the page's number."""
    word = line.take("the address of a page")
    return word, page_part(word, 0, word.text)


def read_map(line, tables):
    """`PAGE -> FRAME LETTERS`, or `FIRST..END -> FRAME LETTERS` for pages in a row."""
    where = line.take("the address of a page")
    first, end = read_span(where)
    line.take_symbol("->")
    target, frame = read_page(line)
    bits = read_letters(line)
    for k in range(end - first):
        refuse(where, page_fault(first + k))
        refuse(target, page_fault(frame + k))
        add_mapping(tables, where, Mapping(first + k, frame + k, bits))


def read_span(word):
    """One page or several, `FIRST..END`, as numbers of the first and of the one behind the last."""
    parts = word.text.split("..")
    if len(parts) > 2:
        raise word.error(f"expected a page or FIRST..END, found '{word.text}'")
    offset = len(parts[0]) + 2
    first = page_part(word, 0, parts[0])
    end = page_part(word, offset, parts[1]) if len(parts) == 2 else first + 1
    if end <= first:
        raise word.error(f"expected an end above 0x{first * PAGE:X}, found {parts[1]}", offset)
    return first, end


def page_part(word, offset, text):
    """The page whose address a part of a word is."""
    address = read_word(word, names.ADDRESS, offset, text)
    if address % PAGE:
        raise word.error(f"expected the address of a page, a multiple of 0x{PAGE:X}, found {text}", offset)
    return address // PAGE


def read_letters(line):
    word = line.take("letters of r, w, x and u")
    bits = 0
    for k, letter in enumerate(word.text):
        bit = names.LEAF_FLAGS.get(letter.upper(), 0)
        if not bit or bits & bit:
            raise word.error(f"expected letters of r, w, x and u, each once, found '{letter}'", k)
        bits |= bit
    refuse(word, bits_fault(bits))
    return bits


def refuse(word, fault):
    if fault:
        raise word.error(fault)


def add_mapping(tables, where, mapping):
    if mapping.page in tables.mappings:
        raise where.error(f"page 0x{mapping.page * PAGE:X} is mapped twice in these tables")
    if len(tables.mappings) == MOST_MAPPINGS:
        raise where.error(f"tables have at most {MOST_MAPPINGS} mappings")
    tables.mappings[mapping.page] = mapping
    needed = frames_needed(tables.mappings.values())
    if tables.frames is not None and needed > tables.frames:
        raise where.error(f"these tables need {needed} frames with this page, and have {tables.frames}")

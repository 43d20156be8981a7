"""Page tables from mappings, laid out as the crate `tables` does, and mappings read back out of such tables.

The first frame is the level-1 table, each further one a level-2 table, in ascending order. A used word holds its frame
and V, a leaf its listed bits too, and all else is zero.
"""
from dataclasses import dataclass
import struct

from rehearsal.script.header import PAGE, RESERVED

MOST_MAPPINGS = 512
WORDS_OF_TABLE = 1024
VALID, READ, WRITE, EXECUTE, USER = 1, 2, 4, 8, 16


@dataclass(frozen=True, order=True)
class Mapping:
    """A virtual page, the frame that it leads to, and R, W, X and U as a leaf has them."""

    page: int
    frame: int
    bits: int


def bits_fault(bits):
    """Why a walk would not accept a leaf with these bits, or None."""
    if not bits & (READ | WRITE | EXECUTE):
        return "a leaf needs one of r, w and x"
    if bits & WRITE and not bits & READ:
        return "a leaf with w needs r: a walk does not accept w alone"
    return None


def page_fault(page):
    return f"no page at or above 0x{RESERVED:X} can be mapped" if page * PAGE >= RESERVED else None


def frames_needed(mappings):
    return 1 + len({mapping.page // WORDS_OF_TABLE for mapping in mappings})


def lay_out(mappings, first):
    """The bytes of the used frames; `first` is the number of the first one."""
    groups = sorted({mapping.page // WORDS_OF_TABLE for mapping in mappings})
    words = [0] * (WORDS_OF_TABLE * (1 + len(groups)))
    for k, group in enumerate(groups, start=1):
        words[group] = (first + k) * PAGE | VALID
    for mapping in mappings:
        table = 1 + groups.index(mapping.page // WORDS_OF_TABLE)
        words[table * WORDS_OF_TABLE + mapping.page % WORDS_OF_TABLE] = mapping.frame * PAGE | mapping.bits | VALID
    return struct.pack(f">{len(words)}I", *words)


def recognise(image, base, ptbr):
    """The mappings whose layout at PTBR the image holds, to the byte; None if there are none."""
    first = ptbr // PAGE
    level1 = table_at(image, base, first)
    if level1 is None:
        return None
    used = [(group, word) for group, word in enumerate(level1) if word]
    mappings = [mapping for group, word in used for mapping in mappings_of(image, base, group, word)]
    if not 0 < len(mappings) <= MOST_MAPPINGS or any(map(fault, mappings)):
        return None
    written = lay_out(mappings, first)
    start = first * PAGE - base
    return mappings if image[start:start + len(written)] == written else None


def mappings_of(image, base, group, word):
    """The leaves behind a level-1 word, if it leads to a table."""
    table = table_at(image, base, word // PAGE) or []
    return [leaf_mapping(group * WORDS_OF_TABLE + k, leaf) for k, leaf in enumerate(table) if leaf]


def leaf_mapping(page, leaf):
    return Mapping(page, leaf // PAGE, leaf & (READ | WRITE | EXECUTE | USER))


def fault(mapping):
    return bits_fault(mapping.bits) or page_fault(mapping.page) or page_fault(mapping.frame)


def table_at(image, base, frame):
    """The words of a frame, or None where it lies outside the memory."""
    start = frame * PAGE - base
    if start < 0 or start + PAGE > len(image):
        return None
    return struct.unpack_from(f">{WORDS_OF_TABLE}I", image, start)

"""Seeded scripts and texts: good scripts of every layout, and damage."""
import random
import struct

from rehearsal.language.names import SYSTEM_REGISTERS
from rehearsal.script.tables import Mapping, lay_out

PAGE = 4096
HEADER = 24
EDGES = (0, 1, 9, 10, 0xFFF, 0x1000, 0x80060009, 0x7FFFFFFF, 0x80000000, 0xFFFF0000, 0xFFFFFFFF)


def good_script(seed):
    """Sections in either order, gaps and a tail of any bytes, empty sections anywhere."""
    rng = random.Random(seed)
    base = rng.choice((0, PAGE, 0x80000000, 0xFFFE8000))
    image = image_bytes(rng, base)
    events = b"".join(event(rng, base) for _ in range(rng.choice((0, 1, 5, 40))))
    script, offsets = bytearray(HEADER), {}
    for name, content in rng.sample((("events", events), ("image", image)), 2):
        script += noise(rng, rng.choice((0, 0, 1, 20)))
        offsets[name] = len(script) if content else rng.choice((0, HEADER, 0xFFFFFFFF))
        script += content
    script += noise(rng, rng.choice((0, 0, 3, 40)))
    header = (len(events) // 12, offsets["events"], len(image), offsets["image"], base, rng.choice(EDGES))
    script[:HEADER] = struct.pack(">6I", *header)
    return bytes(script)


def noise(rng, length):
    """Any bytes, of which many are zero."""
    return bytes(rng.choice((0, rng.randrange(256))) for _ in range(length))


def image_bytes(rng, base):
    pages = rng.choice((0, 1, 4, 8))
    image = bytearray(pages * PAGE)
    if pages >= 4 and rng.random() < 0.7:
        tables = lay_out(mappings(rng), base // PAGE)
        image[:len(tables)] = tables
    for _ in range(rng.choice((0, 0, 3, 60)) if pages else 0):
        at = rng.randrange(len(image))
        image[at] = rng.randrange(256)
    return bytes(image)


def mappings(rng):
    """Good mappings in at most three level-2 tables."""
    groups = rng.sample(range(1023), rng.randrange(1, 4))
    pages = {1024 * rng.choice(groups) + rng.randrange(1024) for _ in range(rng.randrange(1, 40))}
    rights = (2, 6, 8, 10, 14, 18, 22, 24, 26, 30)
    return [Mapping(page, rng.randrange(0xFFFF0), rng.choice(rights)) for page in sorted(pages)]


def event(rng, base):
    """Of every kind, with fields that it uses and others; often one that makes the image's tables those of PTBR."""
    if rng.random() < 0.2:
        return struct.pack(">BBHII", 6, 0, SYSTEM_REGISTERS["PTBR"], base, 0)
    kind = rng.choice((*range(16), 6, 16, 200, 255))
    aux = rng.choice((0, 1, *SYSTEM_REGISTERS.values(), rng.randrange(0x10000)))
    size = rng.choice((0, 1, 2, 4, 31, 32, rng.randrange(256)))
    a, b = (rng.choice((0, 4, 16, base, *EDGES, rng.randrange(1 << 32))) for _ in range(2))
    if rng.random() < 0.5:
        b = 0
    return struct.pack(">BBHII", kind, size, aux, a, b)


WORDS = ("load", "map", "tables", "at", "kind", "rwu", "w", "é", "4", "0x10", "99999999999", "-1", "0x")
WORDS += ("->", ":", "=", "#", "|", "..", "\t")


def damaged(text, rng):
    """A text with a few of its characters, words or lines taken out, doubled or put in another's place."""
    for _ in range(rng.randrange(1, 4)):
        text = rng.choice((damaged_letter, damaged_word, damaged_line))(text, rng)
    return text


def damaged_letter(text, rng):
    at = rng.randrange(len(text) + 1)
    return text[:at] + rng.choice(("", "x", "0", " ", "\n", ":")) + text[at + rng.randrange(2):]


def damaged_word(text, rng):
    words = text.split(" ")
    words[rng.randrange(len(words))] = rng.choice(WORDS)
    return " ".join(words)


def damaged_line(text, rng):
    lines = text.split("\n")
    at, other = rng.randrange(len(lines)), rng.randrange(len(lines))
    lines[at] = rng.choice(("", lines[other], lines[at] + " " + lines[other]))
    return "\n".join(lines)

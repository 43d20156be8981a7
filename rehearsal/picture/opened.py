"""What is open to users, where the tables lie, and which premise of demand 3 a hidden range breaks.

The definitions are those of crates/mmu/specs/Opened.antt and crates/isolation/specs/Premises.antt, page by page: a page
is a table's if it is PTBR's or if a level-1 word that the walk follows names it, and a page is open for an access if a
leaf or a valid TLB entry gives users that access to it.
"""
from collections import defaultdict
from dataclasses import dataclass

from rehearsal.machine.state import LEAF_BITS, Entry
from rehearsal.script.header import PAGE, RESERVED
from rehearsal.script.tables import READ, VALID, WORDS_OF_TABLE, WRITE, table_at

RWX = 0x0E
RESERVED_BITS = 0xC0
ENTRY_BITS = 0x1E
ACCESSES = tuple(LEAF_BITS)
DOING = {"read": "reading", "write": "writing", "fetch": "fetching"}


@dataclass(frozen=True)
class Way:
    """An entry, and where it is: 'leaf' at the address of its word, or 'TLB slot' and its number."""

    entry: Entry
    source: str
    place: int

    def opens(self, access):
        """A page at or above the limit is refused before any entry is looked at."""
        return self.entry.page * PAGE < RESERVED and self.entry.permits(access)

    @property
    def where(self):
        return f"the leaf at 0x{self.place:X}" if self.source == "leaf" else f"TLB slot {self.place}"


@dataclass(frozen=True)
class Memory:
    content: bytes
    base: int

    @property
    def end(self):
        return self.base + len(self.content)

    def frames(self):
        return range(self.base // PAGE, self.end // PAGE)

    def table(self, frame):
        return table_at(self.content, self.base, frame)


@dataclass
class Access:
    """Who can touch what: the frames of the tables, and the ways into frames, by frame."""

    memory: Memory
    level1: int
    tables: set[int]
    ways: dict[int, list[Way]]

    def into(self, frame):
        return self.ways.get(frame, [])

    def opened_for(self, frame):
        """The accesses for which a page is open."""
        return [kind for kind in ACCESSES if any(way.opens(kind) for way in self.into(frame))]

    def opened(self):
        """The frames that are open for something."""
        return {frame for frame in self.ways if self.opened_for(frame)}


def access_of(memory, state):
    """From a memory and a state's PTBR and TLB."""
    level1 = state.ptbr // PAGE
    level2 = named_tables(memory, level1)
    ways = defaultdict(list)
    for frame, groups in level2.items():
        for group in groups:
            for way in leaves_of(memory, frame, group):
                ways[way.entry.frame].append(way)
    for n, entry in enumerate(state.tlb):
        if entry.valid:
            ways[entry.frame].append(Way(entry, "TLB slot", n))
    return Access(memory, level1, {level1, *level2}, dict(ways))


def named_tables(memory, level1):
    """The frames of level-2 tables, each with the level-1 words that name it."""
    named = {}
    for group, word in enumerate(memory.table(level1) or ()):
        if is_pointer(word):
            named.setdefault(word // PAGE, []).append(group)
    return named


def leaves_of(memory, frame, group):
    """The leaves of a table behind a level-1 word. Words outside the memory cannot be read."""
    for k, word in enumerate(memory.table(frame) or ()):
        if is_leaf(word):
            entry = Entry(True, group * WORDS_OF_TABLE + k, word // PAGE, word & ENTRY_BITS)
            yield Way(entry, "leaf", frame * PAGE + 4 * k)


def well_formed(word):
    return bool(word & VALID) and not word & RESERVED_BITS


def is_pointer(word):
    return well_formed(word) and not word & RWX


def is_leaf(word):
    return well_formed(word) and bool(word & RWX) and (not word & WRITE or bool(word & READ))


# ---- the premises

@dataclass(frozen=True)
class Hidden:
    """Physical bytes from start up to end, which is not one of them."""

    start: int
    end: int

    def frames(self):
        return range(self.start // PAGE, -(-self.end // PAGE))

    def __str__(self):
        return f"0x{self.start:X}..0x{self.end:X}"


def hidden_in_tables(access, hidden):
    """Premise 1: no hidden byte is a table byte."""
    frames = sorted(frame for frame in access.tables if frame in hidden.frames())
    return [f"the page at 0x{frame * PAGE:X} is a {table_kind(access, frame)} table" for frame in frames]


def hidden_in_open_pages(access, hidden):
    """Premise 2: no hidden byte lies in a page that is open to users."""
    frames = sorted(frame for frame in access.ways if frame in hidden.frames())
    return [fault for frame in frames for fault in openings(access, frame, ACCESSES)]


def tables_open_for_writing(access):
    """Premise 3: no table byte of the memory lies in a page that is open to users for writing."""
    frames = sorted(frame for frame in access.tables if frame in access.memory.frames())
    return [fault for frame in frames for fault in openings(access, frame, ("write",))]


def openings(access, frame, kinds):
    """A sentence for each way that opens a page for one of these accesses."""
    for way in access.into(frame):
        opened = [kind for kind in kinds if way.opens(kind)]
        if opened:
            doing = " and ".join(DOING[kind] for kind in opened)
            yield f"{way.where} opens the page at 0x{frame * PAGE:X} for {doing}, as 0x{way.entry.page * PAGE:X}"


def table_kind(access, frame):
    return "level-1" if frame == access.level1 else "level-2"

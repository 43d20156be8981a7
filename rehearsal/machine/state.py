"""The machine's state as `inspect` prints it."""
from dataclasses import dataclass

from rehearsal.language.names import ACCESS_DETAILS, LEAF_FLAGS
from rehearsal.script.header import PAGE, RESERVED

USER = 4
STATUS_AT_RESET = 3
LINES = 256


@dataclass(frozen=True)
class Region:
    start: int
    end: int
    flags: int

    def grants(self, address, access):
        return self.start <= address < self.end and bool(self.flags & ACCESS_DETAILS[access])


@dataclass(frozen=True)
class Entry:
    """A TLB slot, or what a leaf would put into one: page numbers, and R, W, X and U as a leaf has them."""

    valid: bool
    page: int
    frame: int
    flags: int

    def permits(self, access):
        """A user's access: U, the access bit, and a frame below the reserved addresses."""
        wanted = LEAF_FLAGS["U"] | LEAF_BITS[access]
        return self.flags & wanted == wanted and self.frame * PAGE < RESERVED


NO_ENTRY = Entry(False, 0, 0, 0)
LEAF_BITS = {"read": LEAF_FLAGS["R"], "write": LEAF_FLAGS["W"], "fetch": LEAF_FLAGS["X"]}


@dataclass(frozen=True)
class State:
    """`bank` is R28 to R30 of the mode that is not current; tags and memory are digests."""

    status: int
    epc: int
    cause: int
    bank: tuple[int, ...]
    translation: bool
    ptbr: int
    vfault: int
    next_victim: int
    regions: tuple[Region, ...]
    tlb: tuple[Entry, ...]
    pending: int
    enable: int
    levels: int
    enabled: tuple[bool, ...]
    counts: tuple[int, ...]
    tags: tuple[int, ...]
    registers: tuple[int, ...]
    memory: int

    @property
    def user(self):
        return bool(self.status & USER)

    @property
    def translating(self):
        return self.user and self.translation

    def lookup(self, page):
        """The first valid slot of a page, or None."""
        return next((entry for entry in self.tlb if entry.valid and entry.page == page), None)

    def physical(self, address):
        """Where a byte of an allowed access is. A page that is not resident any more is physical page 0."""
        if not self.translating:
            return address
        entry = self.lookup(address // PAGE)
        return (entry.frame if entry else 0) * PAGE + address % PAGE


def numbers(text):
    return tuple(int(word, 16) for word in text.split())


def parse_state(lines):
    """A state from its lines by their names."""
    system = lines["sys"].split()
    first, second, third, translation, ptbr, vfault = (int(word, 16) for word in system[3:9])
    pending, enable, levels = numbers(lines["irq"])
    cache = numbers(lines["cac"])
    return State(
        *numbers(" ".join(system[:3])),
        bank=(first, second, third),
        translation=bool(translation),
        ptbr=ptbr,
        vfault=vfault,
        next_victim=int(system[9]),
        regions=parse_regions(numbers(lines["rgn"])),
        tlb=tuple(parse_slot(slot) for slot in lines["tlb"].split()),
        pending=pending,
        enable=enable,
        levels=levels,
        enabled=tuple(map(bool, cache[:2])),
        counts=cache[2:6],
        tags=cache[7:9],
        registers=numbers(lines["reg"]),
        memory=numbers(lines["mem"])[0],
    )


def parse_regions(words):
    return tuple(Region(*words[k:k + 3]) for k in range(0, len(words), 3))


def parse_slot(text):
    valid, page, frame, flags = (int(part, 16) for part in text.split(":"))
    return Entry(bool(valid), page, frame, flags)


def start_state(image):
    """The state before the first event: that of a reset, with registers 0."""
    no_tags = digest(b"\xFF" * 4 * LINES)
    return State(
        status=STATUS_AT_RESET,
        epc=0,
        cause=0,
        bank=(0,) * 3,
        translation=False,
        ptbr=0,
        vfault=0,
        next_victim=0,
        regions=(Region(0, 0, 0),) * 8,
        tlb=(NO_ENTRY,) * 16,
        pending=0,
        enable=0,
        levels=0,
        enabled=(True, True),
        counts=(0,) * 4,
        tags=(no_tags, no_tags),
        registers=(0,) * 32,
        memory=digest(image),
    )


def digest(content):
    """FNV-1a over 32 bits."""
    value = 0x811C9DC5
    for byte in content:
        value = (value ^ byte) * 0x01000193 & 0xFFFFFFFF
    return value

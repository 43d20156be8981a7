"""Document 01's walk and page check once more, straight from its words, to hold the package's shortcuts against."""
import struct

PAGE = 4096
LIMIT = 0xFFFF0000
ACCESS_BIT = {0: 2, 1: 4, 2: 8}


def word_at(memory, base, address):
    place = address - base
    if place < 0 or place + 4 > len(memory):
        return None
    return struct.unpack_from(">I", memory, place)[0]


def walk(memory, base, ptbr, address):
    """'bus', 'missing', or the leaf's frame and flags."""
    first = word_at(memory, base, ptbr // PAGE * PAGE + 4 * (address >> 22))
    if first is None:
        return "bus"
    if not first & 1 or first & 0xC0 or first & 0xE:
        return "missing"
    leaf = word_at(memory, base, first // PAGE * PAGE + 4 * (address >> 12 & 1023))
    if leaf is None:
        return "bus"
    if not leaf & 1 or leaf & 0xC0 or not leaf & 0xE or (leaf & 4 and not leaf & 2):
        return "missing"
    return leaf >> 12, leaf & 0x1E


def passes(memory, base, state, kind, address):
    """Whether a page of a user's access is allowed, by the TLB before and the tables."""
    if address // PAGE * PAGE >= LIMIT:
        return False
    for slot in state.tlb:
        if slot.valid and slot.page == address // PAGE:
            return permitted(slot.frame, slot.flags, kind)
    found = walk(memory, base, state.ptbr, address)
    return not isinstance(found, str) and permitted(*found, kind)


def permitted(frame, flags, kind):
    return bool(flags & 16 and flags & ACCESS_BIT[kind]) and frame * PAGE < LIMIT


def fault_address(memory, base, state, event):
    """The first of an access's pages that does not pass, by its fault address."""
    if not passes(memory, base, state, event.kind, event.a):
        return event.a
    return (event.a + event.size - 1) % (1 << 32) // PAGE * PAGE

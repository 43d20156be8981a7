"""An event's line in words: what was answered, where a fault lies, and what it cost."""
from rehearsal.language.names import CACHE_VALUES, CAUSE, VALUES
from rehearsal.script import event as kinds
from rehearsal.script.header import PAGE, RESERVED

ACCESS_NAMES = {kinds.LOAD: "read", kinds.STORE: "write", kinds.FETCH: "fetch"}
EVENT_NAMES = {kinds.LOAD: "load", kinds.STORE: "store", kinds.FETCH: "fetch"}
WRAP = 1 << 32


def explain(event, answer, before, after, header):
    """One line's meaning. The states are those before and after the event."""
    said = SAYINGS[answer.letter](event, answer, before, after, header)
    return "; ".join([said, *stolen_slot(event, answer, after), *costs(answer)])


def stolen_slot(event, answer, after):
    """An allowed access whose first page is not resident afterwards: the second page's fill took its slot."""
    allowed = event.kind in ACCESS_NAMES and answer.letter in "VB"
    if not allowed or not after.translating or after.lookup(event.a // PAGE):
        return []
    return ["its second page took the first one's TLB slot, so the first bytes are physical page 0's"]


def costs(answer):
    parts = [f"stall {answer.stall}"] if answer.stall else []
    if answer.reads:
        parts.append(f"{answer.reads} walk read{'s' if answer.reads > 1 else ''}")
    return parts


# ---- V: a value

def say_value(event, answer, before, after, header):
    value = answer.value
    if event.kind in (kinds.LOAD, kinds.FETCH):
        return f"{'read' if event.kind == kinds.LOAD else 'fetched'} 0x{value:0{2 * event.size}X}"
    if event.kind == kinds.READ:
        return with_meaning(value, VALUES.get(event.aux))
    if event.kind == kinds.CACHE_READ:
        return with_meaning(value, CACHE_VALUES.get(event.a))
    if event.kind == kinds.OUTPUT:
        return f"source {value - 256} asks" if value else "no source asks"
    if event.kind == kinds.IRET:
        return f"goes on at 0x{value:08X} in {'user' if after.user else 'supervisor'} mode"
    return DONE.get(event.kind, "done")


DONE = {
    kinds.STORE: "stored",
    kinds.TRAP: "trap entered, supervisor mode",
    kinds.RESET: "reset; memory and registers stay",
}


def with_meaning(value, form):
    """A value, with its flags by name where it has some."""
    named = form.write(value) if form else ""
    return f"0x{value:08X}, {named}" if named[:1].isalpha() else f"0x{value:08X}"


# ---- X: an exception

def say_exception(event, answer, before, after, header):
    name = CAUSE.exception_of(answer.value)
    if name == "page-fault":
        return say_page_fault(event, answer.value, before, after)
    if name == "protection-fault":
        place = ungranted(event, before)
        return f"protection fault: {ACCESS_NAMES[event.kind]} at 0x{place:08X}, which no region grants"
    if name == "bus-error":
        return f"bus error: a table word for 0x{fault_address(event, before, after):08X} lies outside the memory"
    return f"exception {CAUSE.write(answer.value)}"


def say_page_fault(event, cause, before, after):
    why = "protection" if cause & CAUSE.names["protection"] else "not present"
    return f"page fault: {ACCESS_NAMES[event.kind]}, {why}, at 0x{fault_address(event, before, after):08X}"


def fault_address(event, before, after):
    """The access's own address on its first page, else the start of its second page."""
    first_page = event.a // PAGE
    last = (event.a + event.size - 1) % WRAP
    if last // PAGE == first_page or not first_allowed(event, before, after):
        return event.a
    return last // PAGE * PAGE


def first_allowed(event, before, after):
    """Whether the first page passed: by the entry that was there before, or else by the one that its walk left."""
    page = event.a // PAGE
    entry = before.lookup(page) or after.lookup(page)
    return page * PAGE < RESERVED and entry is not None and entry.permits(ACCESS_NAMES[event.kind])


def ungranted(event, state):
    """The first byte of an access that no region grants."""
    access = ACCESS_NAMES[event.kind]
    addresses = [(event.a + k) % WRAP for k in range(event.size)]
    return next((address for address in addresses if not granted(state, address, access)), event.a)


def granted(state, address, access):
    return address < RESERVED and any(region.grants(address, access) for region in state.regions)


# ---- B: a bus error on data

def say_bus_error(event, answer, before, after, header):
    spots = [after.physical((event.a + k) % WRAP) for k in range(event.size)]
    outside = [spot for spot in spots if not header.base <= spot < header.base + header.image_length]
    said = f"bus error: physical 0x{outside[0]:08X} lies outside the memory"
    inside = len(spots) - len(outside)
    if event.kind == kinds.STORE and inside:
        return f"{said}; the {inside} byte{'s' if inside > 1 else ''} inside written"
    return said


# ---- N: a refusal

def say_refusal(event, answer, before, after, header):
    return f"refused, {answer.value}: {REASONS.get(answer.value, lambda e: 'no reason known')(event)}"


def bad_size(event):
    legal = "2 or 4" if event.kind == kinds.FETCH else "1, 2 or 4"
    return f"a {EVENT_NAMES[event.kind]} has size {legal}, not {event.size}"


def bad_event(event):
    if event.kind == kinds.SET:
        return f"the last register is R31, not {event.size}"
    return f"no event has kind {event.kind}"


REASONS = {1: bad_size, 3: lambda event: f"no system register has number 0x{event.aux:X}", 6: bad_event}
SAYINGS = {"V": say_value, "X": say_exception, "B": say_bus_error, "N": say_refusal}

"""What changed between two states, in words, one line a thing."""
from rehearsal.language.names import CAUSE, LEAF_FLAGS, REGION_FLAGS, STATUS, letters
from rehearsal.machine.state import NO_ENTRY
from rehearsal.script.header import PAGE

COUNTS = ("I hits", "I misses", "D hits", "D misses")
BANKS = ("I", "D")


def changes(before, after):
    """System registers, regions, TLB, controller, cache, registers, memory."""
    parts = (system, regions, tlb, controller, cache, registers, memory)
    return [line for part in parts for line in part(before, after)]


def moved(name, before, after, write="0x{:08X}".format):
    old, new = write(before), write(after)
    return [f"{name}: {old} -> {new}"] if old != new else []


def on_off(flag):
    return "on" if flag else "off"


def system(before, after):
    lines = moved("STATUS", before.status, after.status, STATUS.write)
    lines += moved("EPC", before.epc, after.epc)
    lines += moved("CAUSE", before.cause, after.cause, CAUSE.write)
    lines += moved("translation", before.translation, after.translation, on_off)
    lines += moved("PTBR", before.ptbr, after.ptbr)
    lines += moved("VFAULT", before.vfault, after.vfault)
    for k, (old, new) in enumerate(zip(before.bank, after.bank)):
        lines += moved(f"R{28 + k} of the other mode", old, new)
    return lines


def regions(before, after):
    pairs = enumerate(zip(before.regions, after.regions))
    return [line for n, (old, new) in pairs for line in moved(f"region {n}", old, new, region_text)]


def region_text(region):
    return f"0x{region.start:08X} to 0x{region.end:08X} {letters(region.flags, REGION_FLAGS)}"


def tlb(before, after):
    if any(slot.valid for slot in before.tlb) and all(slot == NO_ENTRY for slot in after.tlb):
        return ["TLB: flushed"]
    pairs = enumerate(zip(before.tlb, after.tlb))
    lines = [line for n, (old, new) in pairs for line in moved(f"TLB slot {n}", old, new, slot_text)]
    return lines + moved("next victim", before.next_victim, after.next_victim, str)


def slot_text(slot):
    if not slot.valid:
        return "empty"
    return f"page 0x{slot.page * PAGE:08X} at 0x{slot.frame * PAGE:08X} {letters(slot.flags, LEAF_FLAGS)}"


def controller(before, after):
    lines = moved("pending", before.pending, after.pending, sources)
    lines += moved("enabled", before.enable, after.enable, sources)
    return lines + moved("levels", before.levels, after.levels, sources)


def sources(mask):
    """The numbers of a mask's sources."""
    return "{" + ", ".join(str(n) for n in range(16) if mask >> n & 1) + "}"


def cache(before, after):
    lines = []
    for k, bank in enumerate(BANKS):
        lines += moved(f"{bank} cache", before.enabled[k], after.enabled[k], on_off)
        lines += [f"{bank} cache: lines changed"] if before.tags[k] != after.tags[k] else []
    for k, name in enumerate(COUNTS):
        lines += moved(name, before.counts[k], after.counts[k], str)
    return lines


def registers(before, after):
    pairs = enumerate(zip(before.registers, after.registers))
    return [line for n, (old, new) in pairs for line in moved(f"R{n}", old, new)]


def memory(before, after):
    return ["memory: changed"] if before.memory != after.memory else []

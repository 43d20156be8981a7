"""The picture's premises against runs of the machine: where all are kept, two memories that differ in the hidden bytes
give one run. It needs the built programs, so the gate runs it behind `rt ci`:

    python3 -m tests.sealed FIRST LAST

Each seed is a scene: tables good and damaged, often a TLB that no longer fits them, a hidden range, and sixty aligned
accesses.
"""
from dataclasses import dataclass, replace
import random
import sys

from rehearsal.machine.memory import memory_after
from rehearsal.machine.programs import Programs, Run
from rehearsal.picture.opened import Hidden
from rehearsal.picture.scene import make_scene
from rehearsal.script.codec import Script
from rehearsal.source import Source
from rehearsal.text.assemble import assemble

PAGE = 0x1000
LEVEL1, LEVEL2, TOP = 1, 2, 8
LEAF_BITS = (0x13, 0x17, 0x19, 0x1F, 0x15, 0x53, 0x11, 0x33, 0)
POINTER_BITS = (1, 1, 3, 0x41, 0x31)
ENTER = ["write STATUS PIE|PU", "iret"]


@dataclass
class Trial:
    """A script, its run, and the memories when the task is let in and at the end."""

    script: Script
    run: Run
    entered: int

    def memory(self, count):
        return memory_after(self.script, self.run.answers[:count], self.run.states[:count])

    def shown(self, first, last):
        """Lines and states of some events, the memory apart."""
        states = [replace(state, memory=0) for state in self.run.states[first:last]]
        return [answer.text for answer in self.run.answers[first:last]], states


def frame(rng):
    return PAGE * rng.randrange(TOP + 1)


def image_lines(rng):
    lines = ["penalty 8", "image-length 0x8000", f"tables at {LEVEL1 * PAGE}"]
    for page in rng.sample(range(12), rng.randrange(2, 8)):
        letters = rng.choice(("r", "rw", "x", "rx", "rwx")) + rng.choice(("u", "u", "u", ""))
        lines.append(f"map {page * PAGE} -> {frame(rng)} {letters}")
    for _ in range(30):
        place = PAGE * rng.choice((0, 3, 4, 5, 6, 7)) + 4 * rng.randrange(1024)
        lines.append(f"words {place}: {rng.randrange(1 << 32)}")
    if rng.random() < 0.3:
        lines.append(f"words {LEVEL2 * PAGE + 4 * rng.randrange(12)}: {frame(rng) + rng.choice(LEAF_BITS)}")
    if rng.random() < 0.2:
        lines.append(f"words {LEVEL1 * PAGE + 4 * rng.randrange(1, 3)}: {frame(rng) + rng.choice(POINTER_BITS)}")
    return lines


def access_lines(rng, count):
    for _ in range(count):
        kind = rng.choice(("load", "load", "store", "fetch"))
        size = rng.choice((2, 4) if kind == "fetch" else (1, 2, 4))
        address = PAGE * rng.randrange(14) + 0x400000 * rng.choice((0,) * 8 + (1, 2))
        address += rng.choice((0, 4, 0x40, 0xFFC, size * rng.randrange(PAGE // size)))
        yield f"{kind} {size} {address}" + (f" {rng.randrange(1 << 32)}" if kind == "store" else "")


def stale_lines(rng):
    """Accesses, and then tables that the supervisor changes behind the TLB's back."""
    yield from access_lines(rng, rng.randrange(1, 6))
    yield "trap 0 syscall"
    for _ in range(rng.randrange(4)):
        yield f"store 4 {LEVEL2 * PAGE + 4 * rng.randrange(12)} {frame(rng) + rng.choice(LEAF_BITS)}"
    yield from ENTER


def scene_lines(rng):
    """The lines of a scene, and which event lets the task in for the sixty accesses."""
    events = [f"write PTBR {LEVEL1 * PAGE}", "write VCTL EN", *ENTER]
    events += stale_lines(rng) if rng.random() < 0.6 else []
    return image_lines(rng) + events + list(access_lines(rng, 60)), len(events) - 1


def hidden_bytes(rng):
    start = PAGE * rng.randrange(TOP) + rng.choice((0, 0, 0x40, 0xFFC))
    return Hidden(start, min(TOP * PAGE, start + rng.choice((4, 0x100, PAGE))))


def other_memory(rng, script, hidden):
    image = bytearray(script.image)
    for place in range(hidden.start, hidden.end):
        image[place] ^= rng.choice((0, 0x5A, 0xFF))
    return replace(script, image=bytes(image))


def differences(hidden, first, second):
    """Addresses at which two memories differ, hidden ones and others."""
    places = {place for place, pair in enumerate(zip(first, second)) if pair[0] != pair[1]}
    inside = places & set(range(hidden.start, hidden.end))
    return inside, places - inside


def alike_at_entry(one, two, hidden):
    count = one.entered + 1
    _, others = differences(hidden, one.memory(count), two.memory(count))
    return not others and one.shown(0, count) == two.shown(0, count)


def isolated(one, two, hidden):
    """What demand 3 promises of the accesses after the entry."""
    count, end = one.entered + 1, len(one.script.events)
    kept = [differences(hidden, trial.memory(count), trial.memory(end))[0] for trial in (one, two)]
    _, others = differences(hidden, one.memory(end), two.memory(end))
    return one.shown(count, end) == two.shown(count, end) and not others and not any(kept)


def try_seed(programs, seed):
    """Whether the premises are kept and whether the runs are isolated; None where they do not start alike."""
    rng = random.Random(seed)
    lines, entered = scene_lines(rng)
    script, hidden = assemble("\n".join(lines)).script, hidden_bytes(rng)
    scripts = (script, other_memory(rng, script, hidden))
    one, two = (Trial(each, programs.run(each.encode(), len(each.events)), entered) for each in scripts)
    if not alike_at_entry(one, two, hidden):
        return None
    scene = make_scene(Source(f"seed {seed}", script.encode()), one.run, [hidden], entered)
    return not scene.broken, isolated(one, two, hidden)


def main(first, last):
    programs, counts = Programs(), {}
    for seed in range(first, last + 1):
        found = try_seed(programs, seed)
        if found == (True, False):
            sys.exit(f"seed {seed}: every premise is kept, and the runs differ")
        counts[found] = counts.get(found, 0) + 1
    kept, seen, unseen = (counts.get(found, 0) for found in ((True, True), (False, False), (False, True)))
    print(f"seeds {first} to {last}: {kept} with every premise kept, all isolated;")
    print(f"{seen + unseen} with a premise broken, of which {seen} show it")


if __name__ == "__main__":
    if len(sys.argv) != 3:
        sys.exit(__doc__)
    main(int(sys.argv[1]), int(sys.argv[2]))

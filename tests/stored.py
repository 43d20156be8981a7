"""Stored scripts with what `inspect` prints of them: the machine's replay set, whose answers are the Rust's."""
from pathlib import Path
import struct

ROOT = Path(__file__).resolve().parent.parent
REPLAY = ROOT / "crates" / "machine_replay"
EXAMPLES = ROOT / "examples"
GOLDEN = Path(__file__).with_name("golden")


def replayed():
    """Each script of the set with its whole output."""
    return list(zip(scripts((REPLAY / "stdin").read_bytes()), outputs((REPLAY / "stdout").read_text())))


def scripts(content):
    """Scripts in a row, each behind its length."""
    at = 0
    while at + 4 <= len(content):
        (length,) = struct.unpack_from(">I", content, at)
        yield content[at + 4:at + 4 + length]
        at += 4 + length


def outputs(text):
    """The set has the state lines that changed; the others are put back behind each event's."""
    lines, state = [], {}
    for line in text.splitlines(keepends=True):
        if line.startswith("S "):
            state[line.split()[1]] = line
            continue
        lines += [*state.values(), line]
        if line.startswith(("end ", "refused ")):
            yield "".join(lines)
            lines, state = [], {}

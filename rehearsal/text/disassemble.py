"""From a script to text: header fields, the image, the events, and bytes in no section."""
from rehearsal.language.forms import event_text
from rehearsal.language.names import LEAF_FLAGS, SYSTEM_REGISTERS, letters
from rehearsal.script.event import WRITE
from rehearsal.script.header import PAGE
from rehearsal.script.tables import frames_needed, recognise
from rehearsal.text.fields import FIELDS, default_image_offset, default_length, field_value

ROW = 16


def disassemble(script):
    """The text of a script. Assembled, it gives the script again, to the byte."""
    parts = [field_lines(script), image_lines(script), [event_text(e) for e in script.events], spare_lines(script)]
    return "".join("\n".join(part) + "\n\n" for part in parts if part)[:-1]


def field_lines(script):
    defaults = default_values(script)
    values = {name: field_value(script, name) for name in FIELDS}
    return [f"{name} {FIELDS[name].write(value)}" for name, value in values.items() if value != defaults.get(name)]


def default_values(script):
    """The fields that are left out where they hold this; the others are always written."""
    header = script.header
    length = default_length(header, max(script.spare, default=-1) + 1)
    image_offset = default_image_offset(header.length, header.events)
    return {"events-offset": header.length, "image-offset": image_offset, "script-length": length}


def image_lines(script):
    """Page tables as mappings, where a PTBR is written with their address, and the other bytes as words."""
    lines, rest = [], bytearray(script.image)
    for ptbr in table_addresses(script):
        mappings = recognise(bytes(rest), script.header.base, ptbr)
        if mappings:
            lines += table_lines(ptbr, mappings)
            start = ptbr - script.header.base
            rest[start:start + PAGE * frames_needed(mappings)] = bytes(PAGE * frames_needed(mappings))
    return lines + word_lines(rest, script.header.base)


def table_addresses(script):
    """Pages that the events make a PTBR, each once."""
    ptbr = SYSTEM_REGISTERS["PTBR"]
    return sorted({e.a // PAGE * PAGE for e in script.events if e.kind == WRITE and e.aux == ptbr})


def table_lines(ptbr, mappings):
    return [f"tables at 0x{ptbr:X}", *map(map_line, mappings)]


def map_line(mapping):
    rights = letters(mapping.bits, LEAF_FLAGS).lower()
    return f"map 0x{mapping.page * PAGE:X} -> 0x{mapping.frame * PAGE:X} {rights}"


def word_lines(image, base):
    """Rows of four words, without the zeros at both ends."""
    starts = [start for start in range(0, len(image), ROW) if any(image[start:start + ROW])]
    return [word_line(image[start:start + ROW], base + start) for start in starts]


def word_line(row, address):
    words = [int.from_bytes(row[k:k + 4], "big") for k in range(0, ROW, 4)]
    used = [k for k, word in enumerate(words) if word]
    first, last = used[0], used[-1]
    return f"words 0x{address + 4 * first:X}: " + " ".join(f"0x{word:08X}" for word in words[first:last + 1])


def spare_lines(script):
    """A line for each run of bytes that are not zero, of at most a row."""
    runs = []
    for offset in sorted(script.spare):
        if runs and runs[-1][-1] == offset - 1 and len(runs[-1]) < ROW:
            runs[-1].append(offset)
        else:
            runs.append([offset])
    return [f"spare {run[0]}: " + " ".join(f"0x{script.spare[offset]:02X}" for offset in run) for run in runs]

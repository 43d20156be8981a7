"""From what a text says to a script. What the runner would refuse is an error of the text, where its cause stands."""
from rehearsal.script.codec import Script, is_spare
from rehearsal.script.header import EVENT_LENGTH, PAGE, SHORTEST_HEADER, Header, Section, refusal
from rehearsal.text.fields import default_image_offset, default_length

# The fields that may be the cause of a fault in a word of the header, the likeliest first.
CAUSES = {
    "event_count": (),
    "events_offset": ("events-offset", "script-length"),
    "image_length": ("image-length",),
    "image_offset": ("image-offset", "events-offset", "script-length"),
    "base": ("base",),
    "script_length": ("script-length", "events-offset", "image-offset"),
}


def lay_out(said, end):
    """`end` is the text's last place, for errors that no word is the cause of."""
    header = header_of(said)
    spare_end = max((piece.end for piece in said.spare), default=0)
    length = said.value("script-length", default_length(header, spare_end))
    refused = refusal(length, header)
    if refused:
        raise place_of(said, refused.word, end).error(refused.reason)
    spare = spare_bytes(said, header, length)
    return Script(header, said.events, image_of(said, header), length, spare)


def header_of(said):
    count, base, length = len(said.events), said.value("base", 0), SHORTEST_HEADER
    events = Section("events", said.value("events-offset", length), EVENT_LENGTH * count)
    return Header(
        event_count=count,
        events_offset=events.start,
        image_length=said.value("image-length", image_length(said, base)),
        image_offset=said.value("image-offset", default_image_offset(length, events)),
        base=base,
        penalty=said.value("penalty", 0),
    )


def image_length(said, base):
    """Whole pages, so that every line of the image fits."""
    end = max((piece.end for piece in said.pieces), default=base)
    return max(0, -(-(end - base) // PAGE) * PAGE)


def place_of(said, word, end):
    """Where a header's fault is due: at a field that says so, else at what made it so."""
    for name in CAUSES[word]:
        if name in said.fields:
            return said.fields[name][0]
    if word == "event_count":
        return said.event_words[-1]
    pieces = said.spare if word == "script_length" else said.pieces
    return max(pieces, key=lambda piece: piece.end).where if pieces else end


def spare_bytes(said, header, length):
    found = {}
    for piece in said.spare:
        for offset, byte in enumerate(piece.content, start=piece.start):
            if offset < header.length or not is_spare(header, offset):
                raise piece.where.error(
                    f"expected bytes outside the header and the sections; offset {offset} is inside")
            if offset >= length:
                raise piece.where.error(
                    f"expected bytes inside the script's {length} bytes; offset {offset} is behind them")
            found[offset] = byte
    return found


def image_of(said, header):
    """The lines in their order: a later one may write over an earlier one."""
    image = bytearray(header.image_length)
    for piece in said.pieces:
        start, end = piece.start - header.base, piece.end - header.base
        if start < 0 or end > len(image):
            memory = f"0x{header.base:X} to 0x{header.base + header.image_length:X}"
            raise piece.where.error(f"0x{piece.start:X} to 0x{piece.end:X} is not inside the memory, {memory}")
        image[start:end] = piece.content
    return bytes(image)

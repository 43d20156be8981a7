"""The picture's options: a range of hidden bytes, and the event after which the state is shown."""
from argparse import ArgumentTypeError

from rehearsal.language.formats import number_of
from rehearsal.picture.opened import Hidden

START = -1
ADDRESSES = 1 << 32


def hidden_range(text):
    """`A..B`, physical addresses, B behind the last byte."""
    ends = [number_of(part) for part in text.split("..")]
    if len(ends) != 2 or None in ends or not ends[0] < ends[1] <= ADDRESSES:
        raise ArgumentTypeError(f"expected A..B with A below B, such as 0x3000..0x4000, found '{text}'")
    return Hidden(*ends)


def event_index(text):
    """An event's number; -1 stands for the start."""
    index = START if text == "start" else number_of(text)
    if index is None:
        raise ArgumentTypeError(f"expected an event's number or 'start', found '{text}'")
    return index

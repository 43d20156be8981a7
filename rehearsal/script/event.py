"""Events as they stand in a script: twelve bytes, of which each kind uses some."""
from dataclasses import astuple, dataclass
import struct

LAYOUT = ">BBHII"


@dataclass(frozen=True)
class Event:
    kind: int
    size: int = 0
    aux: int = 0
    a: int = 0
    b: int = 0

    def encode(self):
        return struct.pack(LAYOUT, *astuple(self))


def decode_all(section):
    return [Event(*fields) for fields in struct.iter_unpack(LAYOUT, section)]


# What the largest value of each field is.
FIELD_BITS = {"kind": 8, "size": 8, "aux": 16, "a": 32, "b": 32}

LOAD, STORE, FETCH, TRAP, IRET, READ, WRITE, SOURCE, CLEAR, ENABLE = range(10)
EXTERNAL_WRITE, CACHE_READ, CACHE_WRITE, RESET, OUTPUT, SET = range(10, 16)
ACCESSES = (LOAD, STORE, FETCH)

"""How one word of text stands for a number, and how a number is written.

What a format writes it reads again as the same number, and it writes each number in one way. Names are read in capitals
and small letters alike.
"""
from difflib import get_close_matches
import re

DIGITS = re.compile(r"\d")
NUMBER = re.compile(r"0[xX][0-9a-fA-F]{1,99}|[0-9]{1,99}")


class BadWord(Exception):
    """A word that is not what was expected. `offset` says where in the word."""

    def __init__(self, message, offset=0):
        super().__init__(message)
        self.offset = offset


def short_hex(value):
    """Small numbers read best in decimal."""
    return str(value) if value < 10 else f"0x{value:X}"


def number_of(word):
    """A number in decimal, or in hexadecimal behind 0x; None where it is none."""
    if not NUMBER.fullmatch(word):
        return None
    return int(word, 16 if word[1:2] in ("x", "X") else 10)


def find_name(names, word):
    return next((value for name, value in names.items() if name.lower() == word.lower()), None)


def found(word, names=()):
    """How an error shows a word: with the name that it may have been meant to be. A wrong digit is no misspelling."""
    spelled = {name.lower(): name for name in names}
    close = get_close_matches(word.lower(), spelled, n=1)
    if not close or DIGITS.sub("", close[0]) == DIGITS.sub("", word.lower()):
        return f"found '{word}'"
    return f"found '{word}'; is it {spelled[close[0]]}?"


class Number:
    """A number of so many bits; `what` is how an error calls it."""

    names = {}

    def __init__(self, what, bits, write=short_hex):
        self.what = what
        self.bits = bits
        self.write = write

    def read(self, word):
        value = self.value_of(word)
        if value is None:
            raise BadWord(f"expected {self.what}, {found(word, self.names)}")
        if value >> self.bits:
            raise BadWord(f"expected {self.what} up to 0x{(1 << self.bits) - 1:X}, found {word}")
        return value

    def value_of(self, word):
        return number_of(word)


class OneOf(Number):
    """A number, some of whose values have names."""

    def __init__(self, what, bits, names, write=short_hex):
        super().__init__(what, bits, write=self.write_named)
        self.names = names
        self.write_number = write

    def value_of(self, word):
        named = find_name(self.names, word)
        return number_of(word) if named is None else named

    def write_named(self, value):
        return self.name_of(value) or self.write_number(value)

    def name_of(self, value):
        return next((name for name, named in self.names.items() if named == value), None)


class Flags(Number):
    """A number made of parts between bars, named or not, no two of which share a bit."""

    def __init__(self, what, bits, names):
        super().__init__(what, bits, write=self.write_parts)
        self.names = names

    def read(self, word):
        value, offset = 0, 0
        for part in word.split("|"):
            value |= self.read_part(part, value, offset)
            offset += len(part) + 1
        return value

    def read_part(self, part, before, offset):
        named = find_name(self.names, part)
        value = number_of(part) if named is None else named
        if value is None or value >> self.bits:
            raise BadWord(f"expected {self.what}, {found(part, self.names)}", offset)
        if value & before:
            raise BadWord(f"'{part}' has a bit that a part before it has", offset)
        return value

    def write_parts(self, value):
        return join_parts(value, self.names)


class Cause(Flags):
    """A CAUSE: an exception with its details, or any number."""

    def __init__(self, exceptions, details):
        every_detail = {name: bit for names in details.values() for name, bit in names.items()}
        super().__init__("an exception, a detail of it or a number", 32, exceptions | every_detail)
        self.exceptions = exceptions
        self.details = details

    def write_parts(self, value):
        name = self.exception_of(value)
        if name is None:
            return short_hex(value)
        detail = value & 0xFFFF
        return f"{name}|{join_parts(detail, self.details.get(name, {}))}" if detail else name

    def exception_of(self, value):
        return next((name for name, named in self.exceptions.items() if named == value & 0xFFFF0000), None)


def join_parts(value, names):
    """The named bits of a value, and what is left of it as a number."""
    parts = [name for name, bit in names.items() if value & bit]
    rest = value & ~sum(names[name] for name in parts)
    if rest or not parts:
        parts.append(short_hex(rest))
    return "|".join(parts)

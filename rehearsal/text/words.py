"""A line of text as words, each of which knows where it stands, and errors that say so."""
from dataclasses import dataclass
import re

from rehearsal.language.formats import BadWord

WORD = re.compile(r"#.*|->|[:=]|(?:(?!->)[^\s#:=])+")


@dataclass(frozen=True)
class Word:
    text: str
    line: int
    column: int

    def error(self, message, offset=0):
        return TextError(self.line, self.column + offset, message)


class TextError(Exception):
    """What is wrong at one place of a text."""

    def __init__(self, line, column, message):
        super().__init__(f"{line}:{column}: {message}")
        self.line = line
        self.column = column
        self.message = message


class Line:
    """The words of a line, taken one after the other. `comment` is what follows a #, or None."""

    def __init__(self, number, text):
        found = [Word(match.group(), number, match.start() + 1) for match in WORD.finditer(text)]
        self.comment = found.pop().text[1:] if found and found[-1].text.startswith("#") else None
        self.words = found
        self.place = 0
        last = found[-1] if found else Word("", number, 1)
        self.end = Word("", number, last.column + len(last.text))

    def more(self):
        return self.place < len(self.words)

    def next_is(self, text):
        return self.more() and self.words[self.place].text == text

    def second_is(self, text):
        """Whether the word behind the next one is this."""
        return self.place + 1 < len(self.words) and self.words[self.place + 1].text == text

    def take(self, expected):
        if not self.more():
            raise self.end.error(f"expected {expected}, found the end of the line")
        self.place += 1
        return self.words[self.place - 1]

    def take_symbol(self, symbol):
        word = self.take(f"'{symbol}'")
        if word.text != symbol:
            raise word.error(f"expected '{symbol}', found '{word.text}'")
        return word

    def read(self, form):
        """The next word by a format: the word and its number."""
        word = self.take(form.what)
        return word, read_word(word, form)

    def finish(self):
        if self.more():
            word = self.words[self.place]
            raise word.error(f"expected the end of the line, found '{word.text}'")


def read_word(word, form, offset=0, text=None):
    """A word, or a part of one that starts at an offset, by a format."""
    try:
        return form.read(word.text if text is None else text)
    except BadWord as bad:
        raise word.error(str(bad), offset + bad.offset) from None

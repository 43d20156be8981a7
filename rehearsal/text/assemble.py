"""From text to a script: the lines are read, then laid out."""
from dataclasses import dataclass

from rehearsal.script.codec import Script
from rehearsal.text.layout import lay_out
from rehearsal.text.reading import Said, read_line
from rehearsal.text.words import Line, TextError, Word


class BadText(Exception):
    """All that is wrong with a text."""

    def __init__(self, errors):
        super().__init__("\n".join(map(str, errors)))
        self.errors = errors


@dataclass
class Text:
    """The script, and what a reader is told beside its events."""

    script: Script
    notes: list[str]
    headings: dict[int, list[str]]


def assemble(text):
    """The script that a text says; raises `BadText`. Every line is read before an error is raised."""
    said, errors = Said(), []
    lines = text.split("\n")
    for number, line in enumerate(lines, start=1):
        try:
            read_line(said, Line(number, line))
        except TextError as error:
            errors.append(error)
    if errors:
        raise BadText(errors)
    try:
        return Text(lay_out(said, end=Word("", len(lines), 1)), said.notes, said.headings)
    except TextError as error:
        raise BadText([error]) from None

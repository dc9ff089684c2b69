"""Lines of a diagram's text, with their places."""

from typing import NamedTuple

BLANKS = b" \t\r"


class Line(NamedTuple):
    """Words of a text, and the place of their first byte: the line's number and the column, both from 1."""

    number: int
    column: int
    words: bytes


def stripped(line: Line) -> Line:
    """A line without the blanks at its ends."""
    words = line.words.lstrip(BLANKS)
    return Line(line.number, line.column + len(line.words) - len(words), words.rstrip(BLANKS))

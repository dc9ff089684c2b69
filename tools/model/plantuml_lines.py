"""
The lines of a PlantUML diagram that say something: those between `@startuml` and `@enduml`, without comments, and
without what the pre-processor would choose or define. Written from PlantUML's documents, and by trying the program.
"""

import re
from typing import Iterator, NamedTuple

from diagram_lines import Line, stripped
from diagram_readings import Diagnostics, Unfinished

START = re.compile(rb"[ \t\r]*@startuml(?![A-Za-z0-9_])")
END = re.compile(rb"[ \t\r]*@enduml(?![A-Za-z0-9_])")
COMMENT = re.compile(rb"/'.*?'/")
LAST_COMMENT = re.compile(rb"/'(?:(?!/').)*'/$")
CONDITION = re.compile(rb"!(?:if|ifdef|ifndef)\b", re.IGNORECASE)
OTHER_BRANCH = re.compile(rb"!else(?:if)?\b", re.IGNORECASE)
CONDITION_END = re.compile(rb"!endif\b", re.IGNORECASE)
DEFINITION = re.compile(rb"!(?:unquoted\s+)?(procedure|function|definelong)\b", re.IGNORECASE)
ONE_LINE_FUNCTION = re.compile(rb"!(?:unquoted\s+)?function\b.*\)\s*return\b", re.IGNORECASE)


def goes_on(line: bytes) -> bool:
    """Whether a line of the text goes on in the next one: it ends in a single `\\`."""
    return line.removesuffix(b"\r").endswith(b"\\") and not line.removesuffix(b"\r").endswith(b"\\\\")


def piece(line: bytes) -> bytes:
    """What a line that goes on gives."""
    return line.removesuffix(b"\r")[:-1]


def joined(lines: list[bytes]) -> list[Line]:
    """The lines with those that they go on in, before anything else is read of them."""
    joined_lines = []
    i = 0
    while i < len(lines):
        number, words = i + 1, b""
        while i < len(lines) and goes_on(lines[i]):
            words += piece(lines[i])
            i += 1
        if i < len(lines):
            words += lines[i]
            i += 1
        joined_lines.append(Line(number, 1, words))
    return joined_lines


def in_source(lines: list[bytes], line: Line) -> Line:
    """The line, with the place in the text where its first byte stands."""
    number, column = line.number, line.column
    while number <= len(lines) and goes_on(lines[number - 1]) and column > len(piece(lines[number - 1])):
        column -= len(piece(lines[number - 1]))
        number += 1
    return Line(number, column, line.words)


class Extent(NamedTuple):
    """Where a diagram stands among the lines of a text, counted from 0, and the first lines of other ones."""

    first: int
    behind: int
    others: list[int]


def extent(lines: list[Line]) -> Extent:
    """The first diagram of a text. A text without `@startuml` is one as a whole, or up to its `@enduml`."""
    starts = [i for i, line in enumerate(lines) if START.match(line.words)]
    first = starts[0] + 1 if starts else 0
    behind = next((i for i in range(first, len(lines)) if END.match(lines[i].words)), None)
    if behind is None:
        if starts:
            raise Unfinished
        behind = len(lines)
    return Extent(first, behind, [i for i in starts[1:] if i > behind])


def without_comment(line: Line) -> Line:
    """A line without the comments at its beginning, and without one at its end. Between them a comment is text."""
    while found := COMMENT.match(line.words):
        line = stripped(Line(line.number, line.column + found.end(), line.words[found.end():]))
    return stripped(line._replace(words=LAST_COMMENT.sub(b"", line.words)))


def uncommented(lines: Iterator[Line], source: list[bytes]) -> Iterator[Line]:
    """
    The lines without comments. A comment `/'` that isn't closed on the line that it begins goes on to the next line
    that ends in `'/`. Elsewhere an open `/'` is text.
    """
    for line in lines:
        line = in_source(source, without_comment(stripped(line)))
        if line.words.startswith(b"/'"):
            if not any(stripped(later).words.endswith(b"'/") for later in lines):
                raise Unfinished
        elif line.words and not line.words.startswith(b"'"):
            yield line


def skipped(lines: Iterator[Line], ends: re.Pattern[bytes], diagnostics: Diagnostics) -> Line:
    """Leaves lines out up to one that has this form, and answers it. Conditions within are passed over whole."""
    depth = 0
    for line in lines:
        if line.words.startswith(b"!"):
            diagnostics.leave_out("pre-processor line", line)
        if depth == 0 and ends.match(line.words):
            return line
        if CONDITION.match(line.words):
            depth += 1
        elif CONDITION_END.match(line.words):
            depth -= 1
    raise Unfinished


def chosen(lines: Iterator[Line], diagnostics: Diagnostics) -> Iterator[Line]:
    """The lines that the pre-processor leaves: of a condition its first branch, and no definition's body."""
    for line in lines:
        if not line.words.startswith(b"!"):
            yield line
            continue
        diagnostics.leave_out("pre-processor line", line)
        definition = DEFINITION.match(line.words)
        if OTHER_BRANCH.match(line.words):
            skipped(lines, CONDITION_END, diagnostics)
        elif definition and not ONE_LINE_FUNCTION.match(line.words):
            skipped(lines, re.compile(rb"!end\s*" + re.escape(definition[1]) + rb"\b", re.IGNORECASE), diagnostics)


def diagram_lines(text: bytes, diagnostics: Diagnostics) -> Iterator[Line]:
    """The lines of a text's first diagram that say something."""
    source = text.split(b"\n")
    lines = joined(source)
    where = extent(lines)
    yield from chosen(uncommented(iter(lines[where.first:where.behind]), source), diagnostics)
    for i in where.others:
        diagnostics.leave_out("diagram", in_source(source, stripped(lines[i])))

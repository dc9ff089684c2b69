"""
The statements of a Mermaid diagram, with their places: without its title block, directives, comments and descriptions.
Written from Mermaid's documents.
"""

import re
from typing import Iterator

from diagram_lines import Line, stripped
from diagram_readings import Unfinished

DIRECTIVE = b"%%{"
DIRECTIVE_END = b"}%%"
DESCRIPTION = re.compile(rb"acc(?:Title|Descr)[ \t\r]*:", re.IGNORECASE)
DESCRIPTION_BLOCK = re.compile(rb"accDescr[ \t\r]*\{", re.IGNORECASE)
# Up to a comment or the end of a statement. The `#` and the `;` of a character by its number or name are neither.
PIECE = re.compile(rb"(?:#\w+;|[^#;])*")


def numbered(text: bytes) -> list[Line]:
    lines = text.split(b"\n")
    return [stripped(Line(number, 1, words)) for number, words in enumerate(lines, 1)]


def behind_title_block(lines: list[Line]) -> list[Line]:
    """The lines behind the block between two lines `---`, where one stands above everything else."""
    first = next((i for i, line in enumerate(lines) if line.words), None)
    if first is None or lines[first].words != b"---":
        return lines
    last = next((i for i in range(first + 1, len(lines)) if lines[i].words == b"---"), None)
    if last is None:
        raise Unfinished
    return lines[last + 1:]


def behind(line: Line, lines: Iterator[Line], sign: bytes) -> Line:
    """What stands behind a sign, which ends a block that begins in this line."""
    while sign not in line.words:
        line = next(lines, None)
        if line is None:
            raise Unfinished
    end = line.words.index(sign) + len(sign)
    return stripped(Line(line.number, line.column + end, line.words[end:]))


def without_blocks(lines: Iterator[Line]) -> Iterator[Line]:
    """The lines without directives, comments and descriptions."""
    for line in lines:
        while True:
            if line.words.startswith(DIRECTIVE):
                line = behind(line, lines, DIRECTIVE_END)
            elif DESCRIPTION_BLOCK.match(line.words):
                line = behind(line, lines, b"}")
            else:
                break
        if not line.words.startswith(b"%%") and not DESCRIPTION.match(line.words):
            yield line


def statements_of(line: Line) -> Iterator[Line]:
    """The statements of a line: `;` ends one, and a comment goes from `#` to the line's end."""
    begin = 0
    while True:
        piece = PIECE.match(line.words, begin)
        statement = stripped(Line(line.number, line.column + begin, piece[0]))
        if statement.words:
            yield statement
        if line.words[piece.end():piece.end() + 1] != b";":
            return
        begin = piece.end() + 1


def diagram_statements(text: bytes) -> Iterator[Line]:
    """The statements of a text, from the top."""
    for line in without_blocks(iter(behind_title_block(numbered(text)))):
        yield from statements_of(line)

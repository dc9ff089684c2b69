"""Sequence diagrams of Mermaid, read statement by statement. Written from Mermaid's documents."""

import re
from typing import Callable, NamedTuple

from diagram_lines import BLANKS, Line
from diagram_readings import Ends, NotRead, Reading
from mermaid_lines import diagram_statements

Found = re.Match[bytes]


def form(pattern: bytes) -> re.Pattern[bytes]:
    """A pattern of a whole statement, in any letters. Its blanks mean nothing, and `\\s` is a blank of a line."""
    return re.compile(pattern.replace(rb"\s", rb"[ \t\r]"), re.VERBOSE | re.IGNORECASE)


# A participant's word has blanks and dashes between its other characters, but no dash at its end. In an arrow it has
# no `+` either.
LISTED = rb"(?:[^<>=:,;\-]+(?:-+[^<>=:,;\-]+)*)"
WORD = rb"(?:[^<>=:,;+\-]+(?:-+[^<>=:,;+\-]+)*)"
# What an arrow is written as: one that goes to the right, to the left, both ways, or gets lost.
RIGHT = rb"--?>>?|--?\)|--?\|[\\/]|--?\\\\|--?//"
LEFT = rb"[\\/]\|--?|//--?|\\\\--?"
BOTH = rb"<<--?>>"
LOST = rb"--?x"
SIGN = form(
    rb"(?:\(\))?(?:(?P<both>" + BOTH + rb")|(?P<left>" + LEFT + rb")|(?P<lost>" + LOST + rb")|(?P<right>" + RIGHT
    + rb"))(?:\(\))?"
)
RECEIVER = form(rb"\s*[+-]?\s*(?P<word>" + WORD + rb")\s*(?::(?P<text>.*))?")

PARTICIPANT = form(
    rb"(?:create\s+)?(?:participant|actor)\s+(?P<word>.+?)\s*(?:@\{.*?\})?(?:\s+as\s+(?P<label>.*))?"
)
NOTE = form(
    rb"note\s+(?:left\s+of|right\s+of|over)\s+(?P<names>" + LISTED + rb"(?:,\s*" + LISTED + rb")*)\s*(?::(?P<text>.*))"
)
ACTIVATION = form(rb"(?:activate|deactivate|destroy)\s+(?P<word>" + LISTED + rb")")
GROUP = form(rb"(?P<word>alt|opt|loop|par|par_over|critical|break)(?:\s.*)?")
BOX = form(rb"(?P<word>box|rect)(?:\s.*)?")
BRANCH = form(rb"(?:else|and|option)(?:\s.*)?")
# (a comment may stand behind these two alone: elsewhere it is part of a text)
END = form(rb"end(?:\s*%%.*)?")
LOOKS = form(
    rb"sequenceDiagram(?:\s*%%.*)? | autonumber(?:\s.*)? | title:?\s.* | (?: links? | properties | details )\s.*"
)
WRAP = re.compile(rb"[ \t\r]*:?(?:no)?wrap:", re.IGNORECASE)


class ArrowElement(NamedTuple):
    """What an arrow's statement says. The names are in the order of the text."""

    names: tuple[bytes, bytes]
    ends: Ends
    left_out: str | None
    is_lost: bool
    text: bytes


def text_of(stated: bytes | None) -> bytes:
    """A text without what says how it is wrapped, and without the blanks at its ends."""
    text = stated or b""
    wrapped = WRAP.match(text)
    return text[wrapped.end() if wrapped else 0:].strip(BLANKS)


def arrow_element(words: bytes) -> ArrowElement | None:
    """What the words of a statement say, if they are an arrow. The first sign of an arrow is its own."""
    sign = SIGN.search(words)
    if not sign:
        return None
    sender = re.fullmatch(WORD, words[:sign.start()].strip(BLANKS))
    receiver = RECEIVER.fullmatch(words, sign.end())
    if not sender or not receiver:
        return None
    one, other = sender[0], receiver["word"].strip(BLANKS)
    return ArrowElement(
        (one, other),
        Ends(other, one) if sign["left"] else Ends(one, other),
        "arrow both ways" if sign["both"] else None,
        bool(sign["lost"]),
        text_of(receiver["text"]),
    )


class Reader:
    """Reads the statements of a diagram, one after the other."""

    def __init__(self, text: bytes, reading: Reading):
        self.reading = reading
        self.statements = diagram_statements(text)

    def read(self) -> None:
        for line in self.statements:
            if not self.is_listed(line) and not self.is_arrow(line):
                raise NotRead(line)

    def acts(self) -> list[tuple[re.Pattern[bytes], Callable[[Line, Found], None]]]:
        reading = self.reading
        return [
            (PARTICIPANT, self.participant),
            (NOTE, self.note),
            (ACTIVATION, lambda line, found: reading.name(line, found["word"].strip(BLANKS))),
            (GROUP, lambda line, found: reading.begin(line, found["word"].lower())),
            (BOX, self.box),
            (BRANCH, lambda line, found: reading.next_branch(line)),
            (END, lambda line, found: reading.end(line)),
            (LOOKS, lambda line, found: None),
        ]

    def is_listed(self, line: Line) -> bool:
        """Whether the statement begins with a word that says what it is, and is read."""
        for form, act in self.acts():
            if found := form.fullmatch(line.words):
                act(line, found)
                return True
        return False

    def participant(self, line: Line, found: Found) -> None:
        if not re.fullmatch(LISTED, found["word"]):
            raise NotRead(line)
        if found["label"] is None:
            self.reading.name(line, found["word"])
        else:
            self.reading.rename(line, found["word"], text_of(found["label"]))

    def note(self, line: Line, found: Found) -> None:
        words = [word.strip(BLANKS) for word in found["names"].split(b",")]
        self.reading.note(line, words, text_of(found["text"]))

    def box(self, line: Line, found: Found) -> None:
        self.reading.begin_box(line, found["word"].lower())

    def is_arrow(self, line: Line) -> bool:
        stated = arrow_element(line.words)
        if stated is None:
            return False
        for word in stated.names:
            self.reading.name(line, word)
        self.reading.arrow(line, stated.ends, stated.text, left_out=stated.left_out, is_lost=stated.is_lost)
        return True

"""Labels and lines for diagrams that are drawn by chance."""

from typing import NamedTuple

from made_schedules import Draw

LABELS = [
    b"ask", b"answer", b"m1", b"m_2", b"ask(1)", b"ask(2)", b"ask[1]", b"ask 1", b"RR Handover Complete", b"from",
    b"to", b"out",
    b"200 OK", b"404 Not Found", b"3", b"_x", b"x_", b"(..)", b"Gr\xc3\xb6\xc3\x9fe", b"a\\nb", b"a \\n b", b"a b",
    b"a  b",
    b"<b>bold</b> text", b"key=value", b"Service Request (attach type, old P-TMSI)",
    b"Service Request (attach type, new P-TMSI)",
    b"Service Request - attach type, old P-TMSI", b"a_label_that_has_32_bytes_as_it_is",
    b"a_label_of_32_bytes_as_it_stands",
    b"say \"hello\"", b"it's", b"50%", b"x-y-z", b"x.y.z", b"endmsc", b"n_", b"n__2", b"ask_2",
]


def in_some_letters(draw: Draw, word: bytes) -> bytes:
    """A keyword, seldom in other letters."""
    return draw.one_of([word] * 6 + [word.upper(), word.title()])


class Owed(NamedTuple):
    """A message that a note sent, and whose receive has to be noted yet."""

    sender: bytes
    receiver: bytes
    message: bytes


class Pen:
    """Writes the lines of a diagram, with indentation and line ends as they come."""

    def __init__(self, draw: Draw):
        self.draw = draw
        self.lines: list[bytes] = []
        self.indentation = draw.one_of([b"", b"", b"  ", b"\t"])
        self.line_end = draw.one_of([b"\n", b"\n", b"\n", b"\r\n"])
        # In some diagrams each message has a label of its own, so that it is seen where it is received.
        self.has_numbers = draw.below(3) == 0
        # How participants are written in arrows, and those that are called as they are written.
        self.words: list[bytes] = []
        self.plain_words: list[bytes] = []
        # Of each group that is open whether its branch is left out.
        self.left_out: list[bool] = []
        self.owed: list[Owed] = []

    def line(self, words: bytes) -> None:
        self.lines.append(words)

    def any_label(self) -> bytes:
        """A label; some have a number behind."""
        label = self.draw.one_of(LABELS)
        if self.has_numbers:
            return label + b" no %d" % len(self.lines)
        return label + b" %d" % self.draw.below(3) if self.draw.below(4) == 0 else label

    def keyword(self, word: bytes) -> bytes:
        return in_some_letters(self.draw, word)

    def two_words(self) -> tuple[bytes, bytes]:
        """A sender and a receiver, mostly not of a message that is on its way."""
        for _ in range(3):
            one, other = self.draw.one_of(self.words), self.draw.one_of(self.words)
            if all({one, other} != {owed.sender, owed.receiver} for owed in self.owed):
                break
        return one, other

    def note_line(self, where: bytes, word: bytes, text: bytes) -> None:
        """Writes a note at a participant, in the tool's words."""
        raise NotImplementedError

    def event_note(self) -> None:
        """A note that says a send, or the receive of one that was stated."""
        if any(self.left_out):
            return
        if self.owed and self.draw.below(3) == 0:
            self.receive_owed(self.draw.below(len(self.owed)))
        elif len(self.plain_words) > 1:
            one, other = self.draw.one_of(self.plain_words), self.draw.one_of(self.plain_words)
            message = self.draw.one_of([b"late", b"late_1", b"ask", b"n_"])
            if self.has_numbers:
                message = b"late_no_%d" % len(self.lines)
            if one != other and all((one, other) != (owed.sender, owed.receiver) for owed in self.owed):
                self.note_line(self.draw.one_of([b"over", b"right of"]), one, b"out " + message + b" to " + other)
                self.owed.append(Owed(one, other, message))

    def receive_owed(self, place: int) -> None:
        owed = self.owed.pop(place)
        where = self.draw.one_of([b"over", b"left of"])
        self.note_line(where, owed.receiver, b"in " + owed.message + b" from " + owed.sender)

    def receive_all(self) -> None:
        """Notes of what is owed, seldom not of the last."""
        while len(self.owed) > 1 or (self.owed and self.draw.below(4)):
            self.receive_owed(0)

    def text(self) -> bytes:
        """The text; seldom its last line isn't ended."""
        lines = [self.indentation * self.draw.below(3) + line for line in self.lines]
        text = self.line_end.join(lines)
        return text if self.draw.below(8) == 0 else text + self.line_end

"""
What the statements of a diagram come to: participants, rows of arrows, the branches that are taken, and the activations
that a `return` answers.
"""

import re
from dataclasses import dataclass, field
from typing import NamedTuple

from diagram_lines import Line

PARALLEL = {b"par", b"par2", b"par_over"}
BOXES = {b"box", b"rect"}


class NotRead(Exception):
    """F35: the words at a place can't be understood."""

    def __init__(self, line: Line):
        super().__init__(line)
        self.line = line


class Unfinished(Exception):
    """F21: the text ends too early."""


class Ends(NamedTuple):
    """From which participant to which an arrow goes. `None` is the edge of the diagram."""

    sender: bytes | None
    receiver: bytes | None


@dataclass
class Frame:
    """A group of statements that is open, and whether those of its present branch are taken."""

    word: bytes
    is_taken: bool


@dataclass
class Participant:
    """A participant's label, and the line that names it first."""

    label: bytes
    line: int


class Arrow(NamedTuple):
    """A message, or a lost one. It ends so many rows further down."""

    line: Line
    sender: bytes
    receiver: bytes
    label: bytes
    is_lost: bool
    rows_down: int = 0


class Note(NamedTuple):
    """A note at one participant, whose text may say an event."""

    line: Line
    participant: bytes
    text: bytes


@dataclass
class Diagnostics:
    """What is left out: of each kind how often, and the first place."""

    counts: dict[str, int] = field(default_factory=dict)
    first: dict[str, Line] = field(default_factory=dict)

    def leave_out(self, kind: str, line: Line) -> None:
        self.counts[kind] = self.counts.get(kind, 0) + 1
        self.first[kind] = min(self.first.get(kind, line), line)


@dataclass
class Reading:
    """What the statements so far have come to. `line_breaks` are the tool's signs for a new line in a label."""

    diagnostics: Diagnostics
    line_breaks: re.Pattern[bytes]
    participants: dict[bytes, Participant] = field(default_factory=dict)
    rows: list[list[Arrow | Note]] = field(default_factory=list)
    # Whether an arrow stands directly above, so that one beside it is in its row.
    row_is_open: bool = False
    frames: list[Frame] = field(default_factory=list)
    # The arrows that activated and weren't answered, the innermost last, and the arrow that stands last.
    activating: list[Ends] = field(default_factory=list)
    last: Ends | None = None
    activates_by_arrows: bool = False

    @property
    def is_taken(self) -> bool:
        """Whether what stands here is read: each group around it is in a branch that is taken."""
        return all(frame.is_taken for frame in self.frames)

    def label_of(self, text: bytes) -> bytes:
        """A label, with a line feed where it goes on in a new line."""
        return self.line_breaks.sub(b"\n", text)

    def name(self, line: Line, word: bytes, label: bytes | None = None) -> None:
        """A participant is named, perhaps with its label. The first line that names it decides."""
        if self.is_taken:
            self.participants.setdefault(word, Participant(self.label_of(word if label is None else label), line.number))

    def rename(self, line: Line, word: bytes, label: bytes) -> None:
        """A participant is named with its label. The last line that does so decides."""
        self.name(line, word)
        if self.is_taken:
            self.participants[word].label = self.label_of(label)

    def leave_out(self, kind: str, line: Line) -> None:
        if self.is_taken:
            self.diagnostics.leave_out(kind, line)

    def pass_by(self, kind: str, line: Line) -> None:
        """Something is left out that is drawn below the arrow above it."""
        if self.is_taken:
            self.diagnostics.leave_out(kind, line)
            self.row_is_open = False

    def arrow(self, line: Line, ends: Ends, label: bytes, *, left_out: str | None = None, is_lost: bool = False,
              in_last_row: bool = False) -> None:
        """An arrow. It is a message unless it is left out for what it is, or for its ends."""
        if not self.is_taken:
            return
        for word in ends:
            if word is not None:
                self.name(line, word)
        self.last = ends
        if not in_last_row or not self.row_is_open:
            self.rows.append([])
        self.row_is_open = True
        if left_out is None and None in ends:
            left_out = "arrow from or to the edge"
        if left_out is None and ends.sender == ends.receiver:
            left_out = "message to oneself"
        if left_out is not None:
            self.leave_out(left_out, line)
        else:
            self.rows[-1].append(Arrow(line, ends.sender, ends.receiver, self.label_of(label), is_lost))

    def note(self, line: Line, words: list[bytes], text: bytes) -> None:
        """A note. At one participant its text may say an event. One that names none is beside the arrow above it."""
        if not self.is_taken:
            return
        for word in words:
            self.name(line, word)
            self.row_is_open = False
        if len(words) == 1 and text:
            self.rows.append([Note(line, words[0], text)])
        else:
            self.leave_out("note", line)

    def activate(self) -> None:
        """A participant is activated, by the arrow that stands last, if there is one."""
        if self.is_taken and self.last is not None:
            self.activating.append(self.last)

    def deactivate(self) -> None:
        """The innermost activation ends."""
        if self.is_taken and self.activating:
            self.activating.pop()

    def give_back(self, line: Line, label: bytes, in_last_row: bool) -> None:
        """A `return`: an arrow back along the one that activated innermost, or else along the one that stands last."""
        if not self.is_taken:
            return
        answered = self.activating[-1] if self.activating else self.last
        if answered is None or (not self.activating and None in answered):
            self.leave_out("return", line)
            return
        self.arrow(line, Ends(answered.receiver, answered.sender), label, in_last_row=in_last_row)
        self.deactivate()

    def begin_box(self, line: Line, word: bytes) -> None:
        """A box around statements begins, which are read."""
        self.leave_out("box", line)
        self.frames.append(Frame(word, True))

    def begin(self, line: Line, word: bytes) -> None:
        """A group begins. Its first branch is taken, unless it is a `break`."""
        if word == b"break":
            self.pass_by("branch", line)
        else:
            self.pass_by("frame", line)
        self.frames.append(Frame(word, word != b"break"))

    def next_branch(self, line: Line) -> None:
        """Another branch of the innermost group, which is taken where the branches are parallel."""
        if not self.frames or self.frames[-1].word in BOXES:
            raise NotRead(line)
        frame = self.frames.pop()
        is_parallel = frame.word in PARALLEL
        self.row_is_open = False
        if not is_parallel:
            self.leave_out("branch", line)
        self.frames.append(Frame(frame.word, is_parallel))

    def end(self, line: Line) -> None:
        """The innermost group ends. No arrow stands last behind it."""
        if not self.frames:
            raise NotRead(line)
        self.frames.pop()
        if self.is_taken:
            self.last = None
            self.row_is_open = False

"""The messages of a diagram that is read: its arrows, and its notes that say a send or a receive."""

import re
from typing import NamedTuple

from diagram_lines import Line
from diagram_readings import Arrow, Note, Reading
from names import LONGEST_NAME, RESERVED

EVENT = re.compile(
    rb"(?:(?P<out>out)|in) (?P<message>[A-Za-z][A-Za-z0-9_]*) (?(out)to|from) (?P<partner>[A-Za-z][A-Za-z0-9_]*)"
)


class Message(NamedTuple):
    """
    From which line of the diagram to which, from 0, the label, the row in which it is sent, the one in which it is
    received unless it is lost, its place in the text, and the one from which on all of it is there: that of its arrow,
    or of the note that receives it.
    """

    sender: int
    receiver: int
    label: bytes
    begins: int
    ends: int
    is_lost: bool
    place: Line
    whole: Line


class Event(NamedTuple):
    """A send or a receive that a note says."""

    row: int
    place: Line
    sends: bool
    lane: tuple[int, int]
    label: bytes


def event_of(note: Note, row: int, numbers: dict[bytes, int], at: int) -> Event | None:
    """The event that a note at an instance says, if it says one with another instance."""
    stated = EVENT.fullmatch(note.text)
    if not stated or len(stated["message"]) > LONGEST_NAME or stated["message"] in RESERVED:
        return None
    partner = numbers.get(stated["partner"])
    if partner is None or partner == at:
        return None
    sends = stated["out"] is not None
    return Event(row, note.line, sends, (at, partner) if sends else (partner, at), stated["message"])


class Collector:
    """Collects the messages of rows, from the top. A note's send waits for the note that says its receive."""

    def __init__(self, reading: Reading, names: list[bytes]):
        self.reading = reading
        self.numbers = {name: number for number, name in enumerate(names)}
        self.instances = {word: number for number, word in enumerate(reading.participants)}
        self.messages: list[Message] = []
        # The lines of notes whose receive has no send.
        self.impossible: list[int] = []
        # By lane and label the places of messages that were sent by notes.
        self.waiting: dict[tuple[tuple[int, int], bytes], list[int]] = {}

    def collect(self) -> None:
        for row, stated in enumerate(self.reading.rows):
            for arrow_or_note in stated:
                if isinstance(arrow_or_note, Arrow):
                    self.arrow(arrow_or_note, row)
                else:
                    self.note(arrow_or_note, row)

    def arrow(self, arrow: Arrow, row: int) -> None:
        sender, receiver = self.instances[arrow.sender], self.instances[arrow.receiver]
        ends = row + arrow.rows_down
        self.messages.append(Message(sender, receiver, arrow.label, row, ends, arrow.is_lost, arrow.line, arrow.line))

    def note(self, note: Note, row: int) -> None:
        event = event_of(note, row, self.numbers, self.instances[note.participant])
        if event is None:
            self.reading.diagnostics.leave_out("note", note.line)
        elif event.sends:
            self.waiting.setdefault((event.lane, event.label), []).append(len(self.messages))
            self.messages.append(Message(*event.lane, event.label, row, row, True, event.place, event.place))
        else:
            self.receive(event)

    def receive(self, event: Event) -> None:
        """The first message of this label that waits on the lane ends here."""
        waiting = self.waiting.get((event.lane, event.label))
        if not waiting:
            self.impossible.append(event.place.number)
        else:
            place = waiting.pop(0)
            sent = self.messages[place]
            self.messages[place] = sent._replace(ends=event.row, is_lost=False, whole=event.place)

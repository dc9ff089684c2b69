"""Sequence diagrams of mscgen, read by its grammar. What the program draws is what a diagram says."""

import re

from chart_texts import MOST_INSTANCES
from diagram_readings import Arrow, Note, Participant, Reading
from mscgen_grammar import Arc, Entity, Grammar
from names import Refused

# A text goes on in the next line as if a blank stood there.
LINE_END = re.compile(rb"[\r\n][ \t\r\n]*")
LEFT_OUT = {"both": "arrow both ways", "headless": "line without a head", "box": "box"}


def text_of(stated: bytes | None) -> bytes:
    """What a text between quotation marks says. The signs for a new line stay."""
    return LINE_END.sub(b" ", stated or b"").replace(b'\\"', b'"')


class Reader:
    """Reads a chart's entities, and then its arcs row by row."""

    def __init__(self, text: bytes, reading: Reading):
        self.grammar = Grammar(text)
        self.reading = reading

    def read(self) -> None:
        msc = self.grammar.msc()
        for entity in msc.entities:
            self.entity(entity)
        if not 2 <= len(self.reading.participants) <= MOST_INSTANCES:
            raise Refused("F8")
        for row, arcs in enumerate(msc.rows):
            self.reading.rows.append([])
            for arc in arcs:
                self.arc(arc, below=len(msc.rows) - 1 - row)

    def entity(self, entity: Entity) -> None:
        """An entity. Arcs mean the first one of its word."""
        label = text_of(entity.word if entity.label is None else entity.label)
        if entity.word in self.reading.participants:
            self.reading.leave_out("participant", entity.line)
        else:
            self.reading.participants[entity.word] = Participant(self.reading.label_of(label), entity.line.number)

    def arc(self, arc: Arc, below: int) -> None:
        """An arc, and how many rows stand below it."""
        if arc.kind == "empty":
            if arc.attributes.label is not None:
                self.reading.leave_out("divider", arc.line)
            return
        for word in (arc.sender, arc.receiver):
            if word is not None and word not in self.reading.participants:
                raise Refused("F23", arc.line.number)
        if arc.kind == "note":
            self.note(arc)
        elif arc.kind in LEFT_OUT:
            self.reading.leave_out(LEFT_OUT[arc.kind], arc.line)
        elif arc.sender == arc.receiver:
            self.reading.leave_out("message to oneself", arc.line)
        else:
            self.arrow(arc, min(arc.attributes.rows_down, below))

    def arrow(self, arc: Arc, rows_down: int) -> None:
        """An arrow to a participant, or to all others."""
        label = self.reading.label_of(text_of(arc.attributes.label))
        others = [word for word in self.reading.participants if word != arc.sender]
        for receiver in others if arc.receiver is None else [arc.receiver]:
            arrow = Arrow(arc.line, arc.sender, receiver, label, arc.kind == "lost", rows_down)
            self.reading.rows[-1].append(arrow)

    def note(self, arc: Arc) -> None:
        """A note. At one participant its text may say an event."""
        text = text_of(arc.attributes.label)
        if arc.sender == arc.receiver and text:
            self.reading.rows[-1].append(Note(arc.line, arc.sender, text))
        else:
            self.reading.leave_out("note", arc.line)

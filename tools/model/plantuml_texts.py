"""
Sequence diagrams of PlantUML, read statement by statement. Written from PlantUML's documents, and by trying the
program: what it draws is what a diagram says.
"""

import re
from typing import Callable

import plantuml_statements as forms
from diagram_lines import BLANKS, Line
from diagram_readings import NotRead, Reading, Unfinished
from plantuml_arrows import ArrowElement, arrow_element
from plantuml_lines import diagram_lines
from plantuml_words import names_in, unquoted

Found = re.Match[bytes]


def text_of(stated: bytes | None) -> bytes:
    return (stated or b"").strip(BLANKS)


class Reader:
    """Reads the lines of a diagram, one after the other."""

    def __init__(self, text: bytes, reading: Reading):
        self.reading = reading
        self.lines = diagram_lines(text, reading.diagnostics)

    def read(self) -> None:
        for line in self.lines:
            if not self.read_line(line):
                raise NotRead(line)

    def read_line(self, line: Line) -> bool:
        """Whether the line is a statement, which is read."""
        return self.is_early_look(line) or self.is_arrow(line) or self.is_listed(line)

    def is_early_look(self, line: Line) -> bool:
        """What the program looks for before arrows: looks, activations and participants."""
        if forms.EARLY_LOOKS.fullmatch(line.words):
            return True
        for begins, ends in forms.BLOCKS_OF_LOOKS:
            if begins.fullmatch(line.words):
                self.pass_over(ends)
                return True
        if forms.BRACES.fullmatch(line.words):
            self.pass_over_braces()
            return True
        for form, act in ((forms.ACTIVATION, self.activation), (forms.PARTICIPANT, self.participant)):
            if found := form.fullmatch(line.words):
                act(line, found)
                return True
        if forms.BARE_DEACTIVATION.fullmatch(line.words):
            self.reading.deactivate()
            return True
        return False

    def is_arrow(self, line: Line) -> bool:
        stated = arrow_element(line.words)
        if stated is None:
            return False
        self.arrow(line, stated)
        return True

    def is_listed(self, line: Line) -> bool:
        """What the program looks for behind arrows."""
        for form, act in self.acts():
            if found := form.fullmatch(line.words):
                act(line, found)
                return True
        return False

    def acts(self) -> list[tuple[re.Pattern[bytes], Callable[[Line, Found], None]]]:
        reading = self.reading
        return [
            (forms.NOTE, self.note),
            (forms.BOX, lambda line, found: reading.leave_out("box", line)),
            (forms.BOX_END, lambda line, found: None),
            (forms.GROUP, lambda line, found: reading.begin(line, found["word"].lower())),
            (forms.BRANCH, lambda line, found: reading.next_branch(line)),
            (forms.END, lambda line, found: reading.end(line)),
            (forms.SHORT_ACTIVATION, self.activation),
            (forms.RETURN, self.give_back),
            (forms.REFERENCE, self.reference),
            (forms.AUTOACTIVATE, self.autoactivate),
            (forms.DIVIDER, lambda line, found: reading.pass_by("divider", line)),
            (forms.DELAY, lambda line, found: reading.pass_by("delay", line)),
            (forms.LOOKS, lambda line, found: None),
        ]

    def pass_over(self, ends: re.Pattern[bytes]) -> None:
        """Leaves the lines of a block out, up to its end."""
        if not any(ends.fullmatch(line.words) for line in self.lines):
            raise Unfinished

    def pass_over_braces(self) -> None:
        depth = 1
        while depth > 0:
            line = next(self.lines, None)
            if line is None:
                raise Unfinished
            if forms.CLOSING_BRACE.fullmatch(line.words):
                depth -= 1
            elif line.words.endswith(b"{"):
                depth += 1

    def participant(self, line: Line, found: Found) -> None:
        word = found["word"] or found["first"] or found["short"] or unquoted(found["name"])
        label = found["label"] or found["quoted"] or found["long"]
        if found["opens"]:
            self.pass_over(forms.PARTICIPANT_END)
        self.reading.name(line, word, label)

    def arrow(self, line: Line, stated: ArrowElement) -> None:
        for word, label in stated.names:
            self.reading.name(line, word, label)
        self.reading.arrow(
            line, stated.ends, text_of(stated.text), left_out=stated.left_out, is_lost=stated.is_lost,
            in_last_row=stated.in_last_row,
        )
        if stated.activation:
            self.activate_by(stated.activation)
        elif self.reading.activates_by_arrows and not stated.is_lost:
            self.activate_by(b"--" if stated.is_dotted else b"++")

    def activate_by(self, signs: bytes) -> None:
        """Signs behind an arrow: `++` activates, `--` ends the innermost activation, and others mean nothing."""
        for i in range(0, len(signs), 2):
            if signs[i:i + 2] == b"++":
                self.reading.activate()
            elif signs[i:i + 2] == b"--":
                self.reading.deactivate()

    def activation(self, line: Line, found: Found) -> None:
        self.reading.name(line, unquoted(found["name"]))
        verb = found["verb"].lower()
        if verb in (b"activate", b"++"):
            self.reading.activate()
        elif verb in (b"deactivate", b"--"):
            self.reading.deactivate()

    def autoactivate(self, line: Line, found: Found) -> None:
        if self.reading.is_taken:
            self.reading.activates_by_arrows = found["word"].lower() == b"on"

    def give_back(self, line: Line, found: Found) -> None:
        self.reading.give_back(line, text_of(found["text"]), bool(found["row"]))

    def note(self, line: Line, found: Found) -> None:
        if found["text"] is None:
            self.pass_over(forms.NOTE_END)
        if found["across"]:
            self.reading.pass_by("note", line)
            return
        self.reading.note(line, names_in(found["names"] or b""), text_of(found["text"]))

    def reference(self, line: Line, found: Found) -> None:
        for word in names_in(found["names"]):
            self.reading.name(line, word)
        if found["text"] is None:
            self.pass_over(forms.REFERENCE_END)
        self.reading.pass_by("reference", line)

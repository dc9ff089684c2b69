"""What `mscview import` answers to a diagram of mscgen, PlantUML or Mermaid: a chart and its warnings, or a refusal."""

import re
from typing import NamedTuple

import mermaid_texts
import mscgen_texts
import plantuml_texts
from chart_texts import MOST_INSTANCES, Chart, chart_text
from detected_tools import detected_tool
from diagram_charts import chart_of, named, refuse_full_lines, refuse_impossible, without_lost
from diagram_lines import Line
from diagram_messages import Collector, Message
from diagram_readings import Diagnostics, NotRead, Reading, Unfinished
from drawn_rows import Stand, stands_of
from given_names import GivenNames, printable, shown
from joined import Join, joined, joined_instances
from names import Refused

READERS = {"mscgen": mscgen_texts.Reader, "plantuml": plantuml_texts.Reader, "mermaid": mermaid_texts.Reader}
# The signs for a new line in a label.
LINE_BREAKS = {
    "mscgen": re.compile(rb"\\n"), "plantuml": re.compile(rb"\\n"),
    "mermaid": re.compile(rb"\\n|<br[ \t]*/?>", re.IGNORECASE),
}
BYTE_ORDER_MARK = b"\xef\xbb\xbf"
MOST_WORDS = 40
# Kinds of things that are left out whose plural isn't the kind with an `s`.
PLURALS = {
    "arrow both ways": "arrows both ways",
    "arrow from or to the edge": "arrows from or to the edge",
    "box": "boxes",
    "branch": "branches",
    "line without a head": "lines without a head",
    "message between joined lines": "messages between joined lines",
    "message to oneself": "messages to oneself",
}


# What is read of those that have more than one run.
READINGS = {"frame": ": one run is read, of par each branch in turn, of others the first branch, once"}


class Options(NamedTuple):
    is_strict: bool = False
    skipped: tuple[tuple[int, int], ...] = ()
    joins: tuple[Join, ...] = ()


class Answer(NamedTuple):
    """An exit status, and what goes to standard output and to standard error."""

    status: int
    written: bytes
    diagnostics: bytes


class Drawn(NamedTuple):
    """
    A chart, and its warnings: names with the labels that they aren't, and messages that overtake, each with the
    one that it overtakes; and the chart's events as they stand in the diagram, from the top on.
    """

    chart: Chart
    names: list[tuple[bytes, bytes]]
    overtaking: list[tuple[Message, Message]]
    stands: list[Stand]


def not_read(text: bytes, line: Line) -> Refused:
    """F35, with a place and the words there."""
    words = text.split(b"\n")[line.number - 1].split(b"\r")[0][line.column - 1:][:MOST_WORDS]
    return Refused("F35", line.number, line.column, printable(words))


def count_of_lines(text: bytes) -> int:
    """How many lines a text has. The last one may have no line feed."""
    return text.count(b"\n") + bool(text.split(b"\n")[-1])


def without_skipped(text: bytes, skipped: tuple[tuple[int, int], ...]) -> bytes:
    """The text with blanks for the lines that are skipped."""
    lines = text.split(b"\n")
    for first, last in skipped:
        for i in range(first - 1, last):
            lines[i] = b" " * len(lines[i])
    return b"\n".join(lines)


def read(tool: str | None, text: bytes) -> Reading:
    """What a diagram of a tool says, or of the one that the text names; or F35, F21, F23 or F8."""
    try:
        tool = detected_tool(text) if tool is None else tool
        reading = Reading(Diagnostics(), LINE_BREAKS[tool])
        READERS[tool](text, reading).read()
    except NotRead as fault:
        raise not_read(text, fault.line)
    except Unfinished:
        raise Refused("F21")
    if not 2 <= len(reading.participants) <= MOST_INSTANCES:
        raise Refused("F8")
    return reading


def draw(reading: Reading, joins: list[Join]) -> Drawn:
    """The chart of a diagram, or F34, F22, F37, F7 or F8."""
    participants = list(reading.participants.values())
    names_of_lines, labels = GivenNames(), GivenNames()
    names = [names_of_lines.new_name(participant.label) for participant in participants]
    collector = Collector(reading, names)
    collector.collect()
    instances = joined_instances(names, [participant.line for participant in participants], joins)
    parts = joined(collector.messages, instances.of_lines)
    messages, lost = without_lost(parts.messages, instances.of_lines)
    refuse_impossible(collector.messages, collector.impossible, list(range(len(names))))
    refuse_full_lines(messages, instances.of_lines)
    if len(instances.names) < 2:
        raise Refused("F8")
    for kind, left_out in (("message between joined lines", parts.within), ("lost message", lost)):
        for message in left_out:
            reading.diagnostics.leave_out(kind, message.place)
    named(labels, messages)
    pairs = [(name, participant.label) for name, participant in zip(names, participants)]
    pairs += [(name, label) for label, name in labels.names.items()]
    return Drawn(
        chart_of(instances.names, messages, instances.of_lines, labels),
        [(name, label) for name, label in pairs if name != label.replace(b" ", b"_")],
        parts.overtaking,
        stands_of(messages, instances.of_lines),
    )


def diagnostics(reading: Reading, drawn: Drawn) -> bytes:
    """What standard error has."""
    rows = []
    for kind, line in sorted(reading.diagnostics.first.items(), key=lambda first: (first[1].number, first[1].column)):
        count = reading.diagnostics.counts[kind]
        if count == 1:
            rows.append(f"1 {kind} is left out, in line {line.number}{READINGS.get(kind, '')}")
        else:
            rows.append(f"{count} {PLURALS.get(kind, kind + 's')} are left out, the first in line {line.number}{READINGS.get(kind, '')}")
    for message, other in drawn.overtaking:
        line, above = message.place.number, other.place.number
        rows.append(f"the message in line {line} overtakes the one in line {above}, and is left out")
    lines = [line.encode() for line in rows] + [b'name %s is "%s"' % (name, shown(label)) for name, label in drawn.names]
    return b"".join(line + b"\n" for line in lines)


def first_left_out(reading: Reading, drawn: Drawn) -> Line | None:
    """The place of the first thing that is left out."""
    places = [*reading.diagnostics.first.values(), *(message.place for message, _ in drawn.overtaking)]
    return min(places, key=lambda place: (place.number, place.column), default=None)


def stands(tool: str | None, text: bytes, options: Options) -> list[Stand]:
    """The events of a diagram that is read, as they stand in it, from the top on."""
    text = without_skipped(text, options.skipped).removeprefix(BYTE_ORDER_MARK)
    return draw(read(tool, text), list(options.joins)).stands


def imported(tool: str | None, text: bytes, options: Options) -> Answer:
    """What the command answers to a text. Without a tool the text names it."""
    if any(last > count_of_lines(text) for _, last in options.skipped):
        return Answer(2, b"", b"refused: G1 Usage\n")
    text = without_skipped(text, options.skipped).removeprefix(BYTE_ORDER_MARK)
    try:
        reading = read(tool, text)
        drawn = draw(reading, list(options.joins))
        place = first_left_out(reading, drawn)
        if options.is_strict and place is not None:
            raise not_read(text, place)
    except Refused as refusal:
        return Answer(2, b"", refusal.text)
    return Answer(0, chart_text(drawn.chart), diagnostics(reading, drawn))

"""A chart's text, read and written line by line as docs/reference/charts.md says."""

import re
from collections import namedtuple

from names import Refused, check_name, whole_lines

MOST_INSTANCES = 32
MOST_EVENTS = 4096

# `partner` is an instance's number from 0; `coregion` is 0 for a send, and for a receive outside of one.
Event = namedtuple("Event", "kind message partner coregion")
# The names of the instances, and a list of events for each.
Chart = namedtuple("Chart", "names lines")

INSTANCE = re.compile(rb"instance ([^ ;\n]+);")
SEND = re.compile(rb"out ([^ ;\n]+) to ([^ ;\n]+);")
RECEIVE = re.compile(rb"in ([^ ;\n]+) from ([^ ;\n]+);")


class Reader:
    """What the lines so far have come to. Partners are kept by name, with the number of their line in the text."""

    def __init__(self):
        self.names = []
        self.lines = []
        self.place = "first"
        self.coregion = 0
        self.coregions = 0

    def read(self, line, number):
        getattr(self, self.place)(line, number)

    def first(self, line, number):
        if line != b"msc run;":
            raise Refused("F20", number)
        self.place = "outside"

    def outside(self, line, number):
        if line == b"endmsc;":
            if len(self.names) < 2:
                raise Refused("F8")
            self.place = "behind"
            return
        stated = INSTANCE.fullmatch(line)
        if not stated:
            raise Refused("F20", number)
        check_name(stated[1], number)
        if stated[1] in self.names:
            raise Refused("F22", number)
        if len(self.names) == MOST_INSTANCES:
            raise Refused("F8")
        self.names.append(stated[1])
        self.lines.append([])
        self.coregions = 0
        self.place = "inside"

    def inside(self, line, number):
        send, receive = SEND.fullmatch(line), RECEIVE.fullmatch(line)
        if send:
            self.add("out", send, number)
        elif receive:
            self.add("in", receive, number)
        elif line == b"concurrent;":
            self.coregion = self.coregions + 1
            self.place = "in_coregion"
        elif line == b"endinstance;":
            self.place = "outside"
        else:
            raise Refused("F20", number)

    def in_coregion(self, line, number):
        receive = RECEIVE.fullmatch(line)
        has_one = self.coregion == self.coregions
        if receive:
            self.add("in", receive, number)
            self.coregions = self.coregion
        elif has_one and line == b"endconcurrent;":
            self.coregion = 0
            self.place = "inside"
        else:
            raise Refused("F20", number)

    def add(self, kind, stated, number):
        message, partner = stated[1], stated[2]
        check_name(message, number)
        check_name(partner, number)
        if partner == self.names[-1]:
            raise Refused("F13", number)
        if len(self.lines[-1]) == MOST_EVENTS:
            raise Refused("F7", number)
        self.lines[-1].append((Event(kind, message, partner, self.coregion), number))

    def behind(self, line, number):
        raise Refused("F20", number)

    def chart(self):
        """The second look, for partners."""
        numbers = {name: number for number, name in enumerate(self.names)}
        lines = []
        for line in self.lines:
            for event, number in line:
                if event.partner not in numbers:
                    raise Refused("F23", number)
            lines.append([event._replace(partner=numbers[event.partner]) for event, _ in line])
        return Chart(self.names, lines)


def read_chart(text):
    """The chart of a text, or `Refused`."""
    reader = Reader()
    lines, rest = whole_lines(text)
    for number, line in enumerate(lines, 1):
        reader.read(line, number)
    if reader.place != "behind":
        raise Refused("F21")
    if rest:
        raise Refused("F20", len(lines) + 1)
    return reader.chart()


def event_text(chart, event):
    word = b"to" if event.kind == "out" else b"from"
    return b"%s %s %s %s;\n" % (event.kind.encode(), event.message, word, chart.names[event.partner])


def chart_text(chart):
    """The text of a chart."""
    text = [b"msc run;\n"]
    for name, line in zip(chart.names, chart.lines):
        text.append(b"instance %s;\n" % name)
        coregion = 0
        for event in line:
            if event.coregion != coregion:
                if coregion:
                    text.append(b"endconcurrent;\n")
                if event.coregion:
                    text.append(b"concurrent;\n")
                coregion = event.coregion
            text.append(event_text(chart, event))
        if coregion:
            text.append(b"endconcurrent;\n")
        text.append(b"endinstance;\n")
    text.append(b"endmsc;\n")
    return b"".join(text)

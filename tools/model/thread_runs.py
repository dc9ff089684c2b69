"""
Whether an output of `mscrun threads FILE --turns N` may be.

Each run may differ, so what is judged is what can't differ.
Each instance goes through its commands in their order, and repeats one while its lane is full or nothing waits. So an
instance that stopped went through all of them in fewer turns than N, and one that is spent through a beginning of them.
"""

import re

from chart_texts import MOST_EVENTS, chart_text, read_chart
from charts import in_order, race_text, races
from names import Refused

OUTPUT = re.compile(
    rb"(msc run;\n.*?^endmsc;\n)((?:race [^\n]+\n)*)((?:note [^\n]+\n)*)((?:spent [^\n]+\n)*)", re.DOTALL | re.MULTILINE
)
WAITING = ("send", "receive", "any")


class Impossible(Exception):
    """Why an output can't be."""


def require(condition, *words):
    if not condition:
        raise Impossible(" ".join(word.decode() if isinstance(word, bytes) else str(word) for word in words))


class Steps:
    """The commands that were passed, each by its instance and its number; and what they did to the lanes."""

    def __init__(self):
        self.sends, self.receives, self.closes = {}, {}, {}
        self.ended, self.found = [], []
        self.passed = []

    def earlier(self, capacity):
        """What must have been made earlier than each command that was passed."""
        pairs = {(p, k): [(p, k - 1)] if k else [] for p, k in self.passed}
        for lane, steps in self.receives.items():
            sent = self.sends.get(lane, [])
            require(len(steps) <= len(sent), "more receives than sends between", *lane)
            for step, send in zip(steps, sent):
                pairs[step].append(send)
        for lane, steps in self.sends.items():
            received = self.receives.get(lane, [])
            require(len(steps) <= len(received) + capacity, "more messages than slots between", *lane)
            for step, receive in zip(steps[capacity:], received):
                pairs[step].append(receive)
        for step, lane, count in self.ended:
            require(lane in self.closes and count == len(self.sends.get(lane, [])), "no end between", *lane)
            pairs[step].append(self.closes[lane])
        for step, counts in self.found:
            waiting = [self.sends[lane][count] for lane, count in counts if count < len(self.sends.get(lane, []))]
            require(waiting, "linefull with no message for", *step)
            # (where several may have waited, none of them is certain)
            pairs[step] += waiting if len(waiting) == 1 else []
        return pairs


class Walk:
    """An instance's way through its commands, along its line of the chart and its notes."""

    def __init__(self, schedule, chart, notes, p, steps):
        self.count = len(schedule.names)
        self.commands = [command for command in schedule.commands if command.actor == p]
        self.line, self.notes, self.p, self.steps = chart.lines[p], notes, p, steps
        self.events = self.coregion = self.greatest = self.number = 0
        self.received = {}

    def cause(self, command):
        """The word of a cause that stands by what this instance itself did."""
        lane = (self.p, command.partner)
        closed = (lane in self.steps.closes, "closed")
        causes = {
            "send": [(self.coregion, "incoregion"), closed, (self.is_full(), "linefull")],
            "close": [closed],
            "concurrent": [(self.coregion, "open")],
            "endconcurrent": [(not self.coregion, "notopen")],
        }
        return next((word for stands, word in causes.get(command.verb, []) if stands), None)

    def is_full(self):
        return self.events == MOST_EVENTS

    def lanes(self, command):
        senders = [q for q in range(self.count) if q != self.p] if command.verb == "any" else [command.partner]
        return [((q, self.p), self.received.get(q, 0)) for q in senders]

    def is_noted(self, command, word):
        """A command that left a note."""
        step = (self.p, self.number)
        if command.verb not in ("receive", "any"):
            require(word == self.cause(command), "line", command.line, "can't be", word)
        elif word == "ended":
            self.steps.ended += [(step, lane, count) for lane, count in self.lanes(command)]
        else:
            require(word == "linefull" and self.is_full(), "line", command.line, "can't be", word)
            self.steps.found.append((step, self.lanes(command)))

    def is_accepted(self, command):
        """A command without a note, where it was accepted: False where it wasn't made, or was repeated to the end."""
        step, lane = (self.p, self.number), (self.p, command.partner)
        if self.cause(command):
            return False
        if command.verb in WAITING:
            return not self.is_full() and self.events < len(self.line) and self.has_event(command, step)
        if command.verb == "close":
            self.steps.closes[lane] = step
        else:
            self.coregion = self.greatest + 1 if command.verb == "concurrent" else 0
        return True

    def has_event(self, command, step):
        event = self.line[self.events]
        if command.verb == "send":
            if event[:3] != ("out", command.message, command.partner):
                return False
            self.steps.sends.setdefault((self.p, command.partner), []).append(step)
        else:
            if event.kind != "in" or command.verb == "receive" and event.partner != command.partner:
                return False
            require(event.coregion == self.coregion, "coregion of", self.p, self.events + 1)
            self.greatest = max(self.greatest, self.coregion)
            self.received[event.partner] = self.received.get(event.partner, 0) + 1
            self.steps.receives.setdefault((event.partner, self.p), []).append(step)
        self.events += 1
        return True

    def go(self, turns):
        """Goes as far as it can have come."""
        for command in self.commands[:turns]:
            word = self.notes.pop(command.line, None)
            if word:
                self.is_noted(command, word)
            elif not self.is_accepted(command):
                return
            self.steps.passed.append((self.p, self.number))
            self.number += 1

    def judge(self, turns, is_spent):
        self.go(turns)
        require(self.events == len(self.line), "line of", self.p, "from", self.events + 1)
        if not is_spent:
            require(self.number == len(self.commands) < turns, "stopped early", self.p)
        elif self.number < turns:
            may_wait = [c for c in self.commands[: self.number + 1] if c.verb in WAITING]
            require(may_wait, "spent with nothing to wait for", self.p)


def note_of(line):
    stated = re.fullmatch(rb"note ([1-9][0-9]*) ([a-z]+)", line)
    require(stated, line)
    return int(stated[1]), stated[2].decode()


def judge(schedule, turns, status, output):
    """Raises `Impossible`, or answers how the run ended: the chart, its races, notes, and who is spent."""
    parts = OUTPUT.fullmatch(output)
    require(parts, "the output has another form")
    try:
        chart = read_chart(parts[1])
        found = races(chart)
    except Refused as refusal:
        raise Impossible("the chart is " + refusal.text.decode()) from refusal
    require(chart.names == schedule.names and chart_text(chart) == parts[1], "another chart's text")
    require(parts[2] == race_text(found) and status == int(bool(found)), "races or status")
    notes = [note_of(line) for line in parts[3].splitlines()]
    require([line for line, _ in notes] == sorted({line for line, _ in notes}), "notes aren't by line")
    spent = [line[len(b"spent "):] for line in parts[4].splitlines()]
    require(spent == [name for name in schedule.names if name in spent], "spent lines")
    left, steps = dict(notes), Steps()
    for p, name in enumerate(schedule.names):
        Walk(schedule, chart, left, p, steps).judge(turns, name in spent)
    require(not left, "notes of commands that weren't made", left)
    pairs = steps.earlier(schedule.capacity)
    require(len(in_order(pairs)) == len(pairs), "no order of the commands comes to this")
    return chart, found, notes, spent

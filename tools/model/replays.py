"""What a schedule means (docs/reference/specification.md), and what its replay prints (replay.md beside it)."""

from collections import deque

from chart_texts import MOST_EVENTS, Chart, Event, chart_text
from charts import race_text, races
from drawn_orders import drawn
from names import Refused


class World:
    """The instances and their lanes. Each command is made by the method of its name, which answers a note's word."""

    def __init__(self, schedule):
        count = len(schedule.names)
        self.capacity = schedule.capacity
        self.lines = [[] for _ in range(count)]
        self.lanes = {(q, p): deque() for q in range(count) for p in range(count) if q != p}
        self.closed = set()
        self.last_sender = [None] * count
        self.coregion = [0] * count

    def greatest(self, p):
        return max((event.coregion for event in self.lines[p]), default=0)

    def send(self, command):
        p, lane = command.actor, (command.actor, command.partner)
        if self.coregion[p]:
            return "incoregion"
        if lane in self.closed:
            return "closed"
        if len(self.lines[p]) == MOST_EVENTS:
            return "linefull"
        if len(self.lanes[lane]) == self.capacity:
            return "full"
        self.lanes[lane].append(command.message)
        self.lines[p].append(Event("out", command.message, command.partner, 0))
        return None

    def take(self, p, senders):
        """Receives from the first of these instances from which a message waits."""
        sender = next((q for q in senders if self.lanes[q, p]), None)
        if sender is None:
            return "ended" if all((q, p) in self.closed for q in senders) else "nothing"
        if len(self.lines[p]) == MOST_EVENTS:
            return "linefull"
        message = self.lanes[sender, p].popleft()
        self.lines[p].append(Event("in", message, sender, self.coregion[p]))
        self.last_sender[p] = sender
        return None

    def receive(self, command):
        return self.take(command.actor, [command.partner])

    def any(self, command):
        p, count = command.actor, len(self.lines)
        last = self.last_sender[p]
        first = 0 if last is None else last + 1
        scan = [(first + step) % count for step in range(count)]
        return self.take(p, [q for q in scan if q != p])

    def close(self, command):
        lane = (command.actor, command.partner)
        if lane in self.closed:
            return "closed"
        self.closed.add(lane)
        return None

    def concurrent(self, command):
        if self.coregion[command.actor]:
            return "open"
        self.coregion[command.actor] = self.greatest(command.actor) + 1
        return None

    def endconcurrent(self, command):
        if not self.coregion[command.actor]:
            return "notopen"
        self.coregion[command.actor] = 0
        return None


def outcome(schedule):
    """The chart that a schedule comes to, and its notes by line."""
    world = World(schedule)
    notes = []
    for command in schedule.commands:
        word = getattr(world, command.verb)(command)
        if word:
            notes.append((command.line, word))
    return Chart(schedule.names, world.lines), sorted(notes)


def not_done_text(notes):
    """What `mscview` reports of a schedule's commands that did nothing."""
    if not notes:
        return b""
    line = notes[0][0]
    if len(notes) == 1:
        return b"1 command of the schedule did nothing, in line %d: the chart lacks it\n" % line
    return b"%d commands of the schedule did nothing, the first in line %d: the chart lacks them\n" % (len(notes), line)


def replay(schedule):
    """The exit status and the bytes that a replay writes."""
    chart, notes = outcome(schedule)
    found = races(chart)
    note_text = "".join(f"note {line} {word}\n" for line, word in notes).encode()
    return int(bool(found)), chart_text(chart) + race_text(found) + note_text


def random(schedule, seed):
    return replay(drawn(schedule, seed))


def check(chart):
    found = races(chart)
    return int(bool(found)), race_text(found)


def answer(read, text, *does):
    """The status, standard output and standard error of what is done with a text, once it is read."""
    try:
        what, *words = does
        status, written = what(read(text), *words)
        return status, written, b""
    except Refused as refusal:
        return 2, b"", refusal.text

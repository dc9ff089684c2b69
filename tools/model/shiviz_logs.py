"""
Logs for ShiViz: an event is `HOST {"HOST":COUNT, ..} EVENT` in one line, or EVENT stands in the line above or below. One in
the words `out M to B` and `in M from A` is read by them; what is behind a comma is left alone. Of others the clocks say
what they are: what an event heard of, and who heard of it.
"""

import re
from collections.abc import Callable
from typing import NamedTuple

from logs import Log, LoggedEvent

CLOCKED = re.compile(r"([^ ]*) (\{[^}]*\})(.*)", re.DOTALL)
ENTRY = re.compile(r'[ \t\r]*"([^"]*)"[ \t\r]*:[ \t\r]*([0-9]+)[ \t\r]*')
WORDS = {("out", "to"): "send", ("in", "from"): "receive"}
BLANKS = " \t\r"


class Clocked(NamedTuple):
    """An event, and where it stands."""

    host: str
    clock: str
    event: str
    place: str = ""

    def entries(self) -> dict[str, int]:
        found: dict[str, int] = {}
        for part in self.clock[1 : self.clock.find("}")].split(","):
            entry = ENTRY.fullmatch(part)
            if entry and int(entry[2]) < 1 << 32:
                found.setdefault(entry[1], int(entry[2]))
        return found


class Hearing(NamedTuple):
    """An event, by its number, that heard of a host's event, which the log may not have."""

    by: int
    host: str
    count: int
    of: int | None


def clocked_in(line: str) -> Clocked | None:
    """What a line with a clock says. Its event may be empty."""
    stated = CLOCKED.match(line)
    return Clocked(stated[1], stated[2], stated[3].strip(BLANKS)) if stated else None


def event_in_words(host: str, event: str) -> LoggedEvent | None:
    """What the words of an event say."""
    words = event.split(",")[0].split()
    kind = WORDS.get((words[0], words[2])) if len(words) == 4 else None
    return LoggedEvent(host, kind, words[3], words[1]) if kind else None


def read_shiviz(lines: list[str], place: Callable[[int], str], first: int, last: int) -> tuple[list[Clocked], list[str]]:
    """The events of a file from the first to the last of these lines, and the places of those that aren't read."""
    events, unmatched = [], []
    number = first
    while number <= min(last, len(lines)):
        line = lines[number - 1].strip(BLANKS)
        below = lines[number].strip(BLANKS) if number < len(lines) else ""
        at = place(number)
        number += 1
        if not line or "(?<" in line:
            continue
        clocked, next_clocked = clocked_in(line), clocked_in(below)
        if clocked and not clocked.event:
            clocked = clocked._replace(event=below)
            number += 1
        elif not clocked and next_clocked and not next_clocked.event:
            clocked = next_clocked._replace(event=line)
            number += 1
        if clocked:
            events.append(clocked._replace(place=at))
        else:
            unmatched.append(at)
    return events, unmatched


class Clocks:
    """What the clocks of events say."""

    def __init__(self, events: list[Clocked]):
        self.events = events
        self.entries = [event.entries() for event in events]
        self.own = [entries.get(event.host, 0) for event, entries in zip(events, self.entries)]
        self.numbers: dict[tuple[str, int], int] = {}
        for number, (event, own) in enumerate(zip(events, self.own)):
            if own:
                self.numbers.setdefault((event.host, own), number)
        self.hearings = self.all_hearings()

    def is_by_clock(self, number: int) -> bool:
        """Whether the clock of this event says what it is."""
        event = self.events[number]
        return self.own[number] > 0 and not event_in_words(event.host, event.event)

    def all_hearings(self) -> list[Hearing]:
        found: list[Hearing] = []
        last: dict[str, dict[str, int]] = {}
        for number, event in enumerate(self.events):
            if not self.own[number]:
                continue
            before = last.get(event.host, {})
            last[event.host] = self.entries[number]
            if self.is_by_clock(number):
                grown = [
                    Hearing(number, host, count, self.numbers.get((host, count)))
                    for host, count in self.entries[number].items()
                    if host != event.host and count > before.get(host, 0)
                ]
                found += [one for one in grown if not any(self.implies(other, one) for other in grown)]
        return found

    def implies(self, other: Hearing, one: Hearing) -> bool:
        """Whether the event that one hears of knows of another one, or may know of it if the log lacks that event."""
        if other.host == one.host:
            return False
        if other.of is not None:
            return self.entries[other.of].get(one.host, 0) >= one.count
        return one.of is not None and self.entries[one.of].get(other.host, 0) < other.count

    def logged(self, number: int) -> list[LoggedEvent]:
        """What an event is, where its clock says it: first its receives."""
        event = self.events[number]
        receives = [one for one in self.hearings if one.by == number]
        sends = [one for one in self.hearings if one.of == number]
        found = []
        for one in receives:
            sent = event if one.of is None else self.events[one.of]
            found.append(LoggedEvent(event.host, "receive", one.host, sent.event, sent.clock))
        return found + [
            LoggedEvent(event.host, "send", self.events[one.by].host, event.event, event.clock) for one in sends
        ]


def add_clocked(log: Log, events: list[Clocked]) -> None:
    """Adds what events say. `log.unmatched` gets the places of those that say nothing."""
    clocks = Clocks(events)
    for number, event in enumerate(events):
        words = event_in_words(event.host, event.event)
        if words:
            log.add_logged(words, event.place)
        elif clocks.is_by_clock(number):
            log.is_timed = True
            for stated in clocks.logged(number):
                log.add_logged(stated, event.place)
        else:
            log.unmatched.append(event.place)

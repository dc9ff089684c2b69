"""
Logs that an expression says how to read: its first match in each line, or in as many lines as it has line feeds and one
more, says by its named groups what happened. It is the first line's where it begins there, and takes the lines that it
touches.
"""

import re
from collections.abc import Callable

from logs import Log, LoggedEvent, Pattern, kind_of
from names import Refused
from shiviz_logs import Clocked


def identity_of(found: re.Match) -> str | None:
    return found.groupdict().get("id") or None


def takes_of(text: str) -> tuple[Pattern, ...]:
    """What a receive would have taken: words PEER:NAMES, before which `takes=` may stand."""
    parted = [word.removeprefix("takes=").partition(":") for word in text.split()]
    return tuple(Pattern(peer, names) for peer, _, names in parted if peer and names)


def is_arrival(found: re.Match) -> bool:
    return found.groupdict().get("arrive") is not None


def logged_event(found: re.Match) -> list[LoggedEvent] | None:
    kind = "arrive" if is_arrival(found) else kind_of(found["dir"])
    takes = takes_of(found.groupdict().get("takes") or "")
    return [LoggedEvent(found["host"], kind, found["peer"], found["name"], identity_of(found), takes)] if kind else None


def logged_capture(found: re.Match) -> list[LoggedEvent] | None:
    sender, receiver, name, identity = found["src"], found["dst"], found["name"], identity_of(found)
    return [
        LoggedEvent(sender, "send", receiver, name, identity),
        LoggedEvent(receiver, "receive", sender, name, identity),
    ]


EVENT = {"host", "dir", "peer", "name"}
CAPTURE = {"src", "dst", "name"}
CLOCK = {"host", "clock", "event"}
SETS = ((EVENT, logged_event), (CAPTURE, logged_capture), (CLOCK, None))


def feeds_of(text: str) -> int:
    """How many line feeds an expression has, but for those in classes that begin with a caret."""
    # (what is taken as one: an escape, the head of a class with a bracket that is itself, and any other character)
    parts = re.findall(r"\\\n|\\.|\[\^?\]?|.|\n", text)
    count = depth = 0
    for part in parts:
        if part.startswith("["):
            depth += 1 if depth or part.startswith("[^") else 0
        elif part == "]":
            depth = max(depth - 1, 0)
        elif not depth:
            count += part in ("\n", "\\n", "\\\n")
    return count


ORDERED = {
    "clock": ("host", "clock", "event"),
    "capture": ("src", "dst", "name"),
    "event": ("host", "dir", "peer", "name"),
}


def lacks(there: set[str]) -> str:
    """The first group that isn't there of the set that is meant, or one of each of two sets."""
    first = {kind: next((name for name in names if name not in there), "") for kind, names in ORDERED.items()}
    if there & {"clock", "event"}:
        return first["clock"]
    if there & {"src", "dst"} and there & {"host", "dir", "peer"} and "name" in there:
        return f"{first['capture']} (for src, dst, name) or {first['event']} (for host, dir, peer, name)"
    return first["capture"] if there & {"src", "dst"} else first["event"]


def byte_characters(text: str) -> str:
    """A character for each byte."""
    return text.encode("utf-8", "surrogateescape").decode("latin-1")


class Expression:
    """An expression with one of the three sets of groups."""

    def __init__(self, text: str):
        self.found = re.compile(text.replace("(?<", "(?P<"))
        self.more = feeds_of(text)
        there = set(self.found.groupindex)
        # (the first of the three that it has whole)
        sets = [one for one in SETS if one[0] <= there]
        if not sets:
            raise Refused("F39", len(text.encode()) + 1, behind=[f"no group is named {lacks(there)}"])
        self.groups, self.logged_by = sets[0]

    @property
    def captures(self) -> bool:
        return self.groups is CAPTURE

    def begun(self, lines: str) -> re.Match | None:
        """The first match, if it begins in the first line."""
        found = self.found.search(lines)
        return found if found and "\n" not in lines[: found.start()] else None

    def absent(self, found: re.Match) -> str | None:
        """The first group that takes no part in a match."""
        needed = self.groups - {"dir"} if is_arrival(found) else self.groups
        order = next(names for names in ORDERED.values() if set(names) == self.groups)
        return next((name for name in order if name in needed and found[name] is None), None)

    def match(self, lines: str) -> re.Match | None:
        """The first match, if it begins in the first line and each group takes part."""
        found = self.begun(lines)
        return found if found and not self.absent(found) else None

    def unread(self, lines: str) -> list[str]:
        """Why the match that begins in the first line isn't read, if there is one, for a line that isn't read."""
        found = self.begun(lines)
        if not found:
            return []
        absent = self.absent(found)
        if absent:
            return [f"its group {absent} takes no part"]
        shown = "".join(c if " " <= c <= "~" else "?" for c in byte_characters(found["dir"])[:40])
        return [f'its dir is "{shown}"']


def touched(found: re.Match) -> int:
    """How many lines behind the first the match touches. A line feed belongs to the line that it ends."""
    return found.string[: max(found.end() - 1, 0)].count("\n")


def read_by(
    log: Log, expression: Expression, lines: list[str], place: Callable[[int], str], first: int, last: int
) -> list[Clocked]:
    """Adds the lines of a file from the first to the last of these numbers, and answers their events with clocks."""
    log.is_captured = log.is_captured or expression.captures
    clocked = []
    number = first
    while number <= min(last, len(lines)):
        window = "\n".join(lines[number - 1 : number + expression.more]).removesuffix("\r")
        found = expression.match(window)
        stated = found and expression.logged_by and expression.logged_by(found)
        if stated:
            for event in stated:
                log.add_logged(event, place(number))
        elif found and not expression.logged_by:
            clocked.append(Clocked(found["host"], found["clock"], found["event"], place(number)))
        elif lines[number - 1].strip(" \t\r"):
            log.unmatched.append(place(number))
            log.unread += [f"{place(number)} matches the expression, but {why}" for why in expression.unread(window)]
        number += 1 + touched(found) if stated or found and not expression.logged_by else 1
    return clocked

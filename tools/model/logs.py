"""
Logs, line by line: `HOST DIR [to or from] PEER NAME [ID] [REST]`, with the arrivals and with what a receive would have
taken, `takes=PEER:NAMES` in REST. Only the order within a host counts, so files may come one after the other.
"""

import re
from collections import defaultdict
from dataclasses import dataclass, field
from typing import NamedTuple

LINE = re.compile(
    r"\s*(\S+)\s+(\S+)\s+(?:(?i:to|from)\s+)?(\S+)\s+(\S+)(?:\s+(?!takes=)(\S+))?(.*)", re.ASCII | re.DOTALL
)
SENDS = ("send", "sent", "tx", "out", "->", ">")
RECEIVES = ("recv", "receive", "received", "rx", "in", "<-", "<")
TAKES = re.compile(r"(?:^|\s)takes=([^\s:]+):(\S+)")
MISSPELLED = re.compile(r"(?:^|\s)takes=(?![^\s:]+:\S)")


class Pattern(NamedTuple):
    """A sender and names, each as the log writes them: `*` is any, and names may end in `*`."""

    peer: str
    names: str

    def fits(self, peer: str, name: str) -> bool:
        if self.peer not in ("*", peer):
            return False
        if self.names.endswith("*"):
            return name.startswith(self.names[:-1])
        return name == self.names


@dataclass(frozen=True)
class Entry:
    """A line of a log. `number` counts the lines of all files, `takes` is empty where nothing is reported."""

    number: int
    place: str
    host: str
    kind: str
    peer: str
    name: str
    identity: str | None
    takes: tuple[Pattern, ...] = ()

    @property
    def lane(self) -> tuple[str, str]:
        return (self.host, self.peer) if self.kind == "send" else (self.peer, self.host)

    @property
    def key(self) -> tuple[str, str]:
        """What receives are paired by along their lane."""
        return ("name", self.name) if self.identity is None else ("id", self.identity)


@dataclass(eq=False)
class Message:
    """A message of a lane, with its lines. One of `send` and `receive` at least is there."""

    lane: tuple[str, str]
    send: Entry | None = None
    receive: Entry | None = None
    arrival: Entry | None = None

    @property
    def name(self) -> str:
        entry = self.send or self.receive
        assert entry is not None
        return entry.name


class LoggedEvent(NamedTuple):
    """What a line says: who did what, with whom, and with which message."""

    host: str
    kind: str
    peer: str
    name: str
    identity: str | None = None
    takes: tuple[Pattern, ...] = ()


@dataclass
class Log:
    """
    The lines that match, in order, the places of those that didn't, why some of these match the expression, the places
    of receives with words `takes=` that are spelled otherwise, how many lines there are, hosts that come first, the
    hosts that words of the log stand for, whether messages were captured, and whether clocks had some.
    """

    entries: list[Entry] = field(default_factory=list)
    unmatched: list[str] = field(default_factory=list)
    unread: list[str] = field(default_factory=list)
    misspelled: list[str] = field(default_factory=list)
    line_count: int = 0
    hosts: list[str] = field(default_factory=list)
    peers: dict[str, str] = field(default_factory=dict)
    is_captured: bool = False
    is_timed: bool = False

    def add(self, text: str, place: str) -> None:
        """Adds what a line says by the words of this page."""
        if not text.strip():
            return
        stated = LINE.match(text)
        kind = stated and kind_of(stated[2])
        if not stated or not kind:
            self.unmatched.append(place)
            return
        host, _, peer, name, identity, rest = stated.groups()
        takes = tuple(Pattern(*two) for two in TAKES.findall(rest or ""))
        self.misspelled += [place] if kind == "receive" and MISSPELLED.search(rest or "") else []
        self.add_logged(LoggedEvent(host, kind, peer, name, identity, takes), place)

    def add_logged(self, event: LoggedEvent, place: str) -> None:
        host, peer = (self.peers.get(word, word) for word in (event.host, event.peer))
        takes = tuple(Pattern(self.sender(pattern.peer), pattern.names) for pattern in event.takes)
        self.entries.append(Entry(len(self.entries), place, host, event.kind, peer, event.name, event.identity, takes))

    def sender(self, word: str) -> str:
        """Whom the word of a pattern stands for. `*` is any sender, and no host."""
        return word if word == "*" else self.peers.get(word, word)

    def passed(self) -> list[Entry]:
        """The sends and receives of messages from one host to another."""
        return [entry for entry in self.entries if entry.kind != "arrive" and entry.host != entry.peer]

    def lines(self) -> dict[str, list[Entry]]:
        """The sends and receives of each host that has one to another host, in order."""
        found: dict[str, list[Entry]] = {host: [] for host in self.hosts}
        for entry in self.passed():
            found.setdefault(entry.host, [])
            found.setdefault(entry.peer, [])
        for entry in self.entries:
            if entry.kind != "arrive" and entry.host in found:
                found[entry.host].append(entry)
        return found


def kind_of(word: str) -> str | None:
    word = word.lower()
    if word in SENDS:
        return "send"
    if word in RECEIVES:
        return "receive"
    return "arrive" if word == "arrive" else None


def place_in(files: int, name: str, number: int) -> str:
    """How the line of this number is named, of so many files."""
    return f"line {number}" if files == 1 else f"{name}:{number}"


def read_logs(files: list[str]) -> Log:
    log = Log()
    for name in files:
        with open(name, encoding="utf-8", errors="surrogateescape", newline="\n") as file:
            for number, line in enumerate(file, 1):
                log.line_count += 1
                log.add(line, place_in(len(files), name, number))
    return log


def messages_of(log: Log, freed: set[int]) -> list[Message]:
    """
    The messages of a log, without those of an instance to itself. Along a lane the n-th receive of a key has its n-th
    send, but that those in `freed` have none.
    """
    messages: list[Message] = []
    waiting: dict[object, list[Message]] = defaultdict(list)
    for entry in log.entries:
        if entry.kind == "send" and entry.host != entry.peer:
            messages.append(Message(entry.lane, send=entry))
            waiting[entry.lane, entry.key].append(messages[-1])
    for entry in log.entries:
        if entry.kind != "receive" or entry.host == entry.peer:
            continue
        left = waiting[entry.lane, entry.key]
        if left and entry.number not in freed:
            left.pop(0).receive = entry
        else:
            messages.append(Message(entry.lane, receive=entry))
    add_arrivals(log, messages)
    return messages


def add_arrivals(log: Log, messages: list[Message]) -> None:
    """
    An arrival is that of the first message of its lane and key that waits: it isn't received before the arrival, and no
    arrival before is its own. Messages come in the order of the receives, and then of the sends.
    """
    of_key: dict[object, list[Message]] = defaultdict(list)
    for message in sorted(messages, key=receive_order):
        entry = message.send or message.receive
        assert entry is not None
        of_key[message.lane, entry.key].append(message)
    for entry in log.entries:
        if entry.kind != "arrive":
            continue
        for message in of_key[entry.lane, entry.key]:
            is_received = message.receive is not None and message.receive.number < entry.number
            if not is_received and message.arrival is None:
                message.arrival = entry
                break


def receive_order(message: Message) -> tuple[bool, int]:
    entry = message.receive or message.send
    assert entry is not None
    return (message.receive is None, entry.number)

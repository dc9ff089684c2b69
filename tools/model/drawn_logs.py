"""Logs that are drawn: any lines at all, cut recordings of lanes, and recordings of mailboxes with what they report."""

import re
from dataclasses import dataclass, field
from random import Random

HOSTS = ("ann", "bob", "cid", "dot", "eve")
NAMES = ("ask", "ask_more", "tell", "stop")


def drawn_lines(draw: Random) -> list[str]:
    """Lines without any sense: most come to cycles and to messages without an end."""
    hosts = HOSTS[: draw.randint(2, 5)]
    lines = []
    for _ in range(draw.randint(0, 40)):
        host, peer = draw.choice(hosts), draw.choice(hosts)
        words = [host, draw.choice(("send", "receive")), peer, draw.choice(NAMES[: draw.randint(1, 4)])]
        if draw.random() < 0.3:
            words.append(str(draw.randint(1, 4)))
        lines.append(" ".join(words))
    return lines


def cut_lines(draw: Random) -> list[str]:
    """The recording of a run over lanes, whose beginning, and some of whose lines, are missing."""
    hosts = HOSTS[: draw.randint(2, 5)]
    lanes: dict[tuple[str, str], list[str]] = {(a, b): [] for a in hosts for b in hosts if a != b}
    lines: list[str] = []
    in_order = draw.random() < 0.7
    for turn in range(draw.randint(10, 80)):
        lane = draw.choice(list(lanes))
        waiting = lanes[lane]
        if waiting and draw.random() < 0.6:
            words = waiting.pop(0 if in_order else draw.randrange(len(waiting)))
            lines.append(f"{lane[1]} receive from {lane[0]} {words}")
        else:
            words = draw.choice(NAMES) + (f" {turn}" if in_order or draw.random() < 0.5 else "")
            waiting.append(words)
            lines.append(f"{lane[0]} send to {lane[1]} {words}")
    begin = draw.choice((0, 0, draw.randint(0, len(lines) // 2)))
    missing = draw.choice((0, 0.05, 0.2))
    return [line for line in lines[begin:] if draw.random() >= missing]


@dataclass
class Mailbox:
    """What waits at a host, by arrival: sender, name and number; and what is on its way, for each sender in order."""

    waiting: list[tuple[str, str, int]] = field(default_factory=list)
    on_the_way: dict[str, list[tuple[str, int]]] = field(default_factory=dict)


class Mailboxes:
    """
    A run of hosts with mailboxes, that take what fits a pattern, and its recording. The ways there aren't always first
    in, first out.
    """

    def __init__(self, draw: Random):
        self.draw = draw
        self.hosts = HOSTS[: draw.choice((2, 3, 3, 4, 5))]
        self.boxes = {host: Mailbox() for host in self.hosts}
        self.lines: list[str] = []
        self.reports_arrivals = draw.random() < 0.8
        self.often_reported = 0.9
        self.reports_patterns = draw.random() < 0.8
        self.in_order = draw.random() < 0.5
        self.names = NAMES[: draw.choice((1, 2, 4, 4))]
        self.most_ids = draw.choice((0, 3, 1000, 1000))

    def words(self, name: str, number: int) -> str:
        """A message's name and its id: that of this message alone, of several messages, or none."""
        return f"{name} {number % self.most_ids}" if self.most_ids else name

    def send(self, number: int) -> None:
        host, peer = self.draw.sample(self.hosts, 2)
        name = self.draw.choice(self.names)
        self.boxes[peer].on_the_way.setdefault(host, []).append((name, number))
        self.lines.append(f"{host} send {peer} {self.words(name, number)}")

    def arrive(self) -> None:
        host = self.draw.choice(self.hosts)
        box = self.boxes[host]
        senders = [peer for peer, left in box.on_the_way.items() if left]
        if senders:
            peer = self.draw.choice(senders)
            way = box.on_the_way[peer]
            name, number = way.pop(0 if self.in_order else self.draw.randrange(len(way)))
            box.waiting.append((peer, name, number))
            if self.reports_arrivals and self.draw.random() < self.often_reported:
                self.lines.append(f"{host} arrive {peer} {self.words(name, number)}")

    def receive(self) -> None:
        host = self.draw.choice(self.hosts)
        peer = self.draw.choice(("*", "*", self.draw.choice(self.hosts)))
        names = self.draw.choice(("*", "*", "ask*", "ask", "tell"))
        for waits in self.boxes[host].waiting:
            if peer in ("*", waits[0]) and (waits[1].startswith(names[:-1]) if names[-1] == "*" else waits[1] == names):
                self.boxes[host].waiting.remove(waits)
                reported = f" takes={peer}:{names}" if self.reports_patterns else ""
                if reported and self.draw.random() < 0.2:
                    reported += f" takes={self.draw.choice(self.hosts)}:{self.draw.choice(NAMES)}"
                self.lines.append(f"{host} receive {waits[0]} {self.words(waits[1], waits[2])}{reported}")
                return


    def go_on(self) -> None:
        """Some turns, and maybe more until nothing waits."""
        for number in range(self.draw.randint(20, 120)):
            turn = self.draw.random()
            if turn < 0.4:
                self.send(number)
            elif turn < 0.75:
                self.arrive()
            else:
                self.receive()
        for _ in range(self.draw.choice((0, 100))):
            self.arrive()
            self.receive()


def recorded_lines(draw: Random) -> list[str]:
    """The recording of a run of mailboxes. Of some the beginning or some lines are missing."""
    run = Mailboxes(draw)
    run.go_on()
    begin = draw.choice((0, 0, draw.randint(0, len(run.lines) // 4)))
    missing = draw.choice((0, 0, 0.05))
    return [line for line in run.lines[begin:] if draw.random() >= missing]


def whole_lines(draw: Random) -> list[str]:
    """
    The whole recording of a run over ways that are first in, first out. Each arrival is known, and each message has an
    id of its own.
    """
    run = Mailboxes(draw)
    run.in_order, run.reports_arrivals, run.often_reported, run.most_ids = True, True, 1, 1000
    run.go_on()
    return run.lines


def without_ids(lines: list[str]) -> list[str]:
    """The same lines, whose messages have their names alone."""
    return [" ".join(words[:4] + words[5:]) for words in (line.split(" ") for line in lines)]


def named_otherwise(draw: Random, lines: list[str]) -> tuple[list[str], tuple[tuple[str, tuple[str, ...]], ...]]:
    """The lines with other words for some hosts, also where a receive would have taken a host's messages; and whose."""
    peers = tuple((host, (f"<0.8{host}>", f"{host}@left")) for host in draw.sample(HOSTS, draw.randint(1, 3)))
    others = {host: (host, *words) for host, words in peers}

    def word(host: str) -> str:
        return draw.choice(others.get(host, (host,)))

    def renamed(line: str) -> str:
        host, kind, peer, *rest = line.split(" ")
        reported = [re.sub("^takes=(.*):", lambda found: f"takes={word(found[1])}:", each) for each in rest]
        return " ".join([word(host), kind, word(peer), *reported])

    return [renamed(line) for line in lines], peers

"""Logs of drawn runs, in many forms: an application's, captures, and logs for ShiViz."""

from dataclasses import dataclass, field
from random import Random
from typing import NamedTuple

from chart_texts import Chart, Event
from charts import sends_of_receives
from drawn_logs import HOSTS, NAMES
from logs import RECEIVES, SENDS
from made_schedules import made_schedule
from replays import outcome

OTHERS = ("", "   ", "\t", "started", "checks its disk, 40 % used", "a send", "b sends c a letter", "--- day 2 ---")
RESTS = ("", " 12 bytes", "\t# again", " takes=*:*")
WORDS = (*NAMES, "<0.81.0>", "10.1.3.7", "200-OK", "é", "to", "in", "x" * 40, "X" * 15 + "y" * 9 + "X" * 15)


class Recorded(NamedTuple):
    """The lines of each host of a chart, and which host's turn it is, line by line."""

    lines: list[list[str]]
    turns: list[int]

    def merged(self) -> list[str]:
        left = [iter(line) for line in self.lines]
        return [next(left[host]) for host in self.turns]


def scheduled_chart(seed: int) -> Chart:
    """What a drawn schedule comes to, without its coregions."""
    schedule = made_schedule(seed)
    commands = [one for one in schedule.commands if one.verb not in ("concurrent", "endconcurrent")]
    return outcome(schedule._replace(commands=commands))[0]


def level_chart(draw: Random) -> Chart:
    """A chart whose messages are all received, and level: one row for each."""
    count = draw.randint(2, 6)
    lines: list[list[Event]] = [[] for _ in range(count)]
    for _ in range(draw.choice((1, 10, 40, 200))):
        sender, receiver = draw.sample(range(count), 2)
        name = draw.choice(NAMES).encode()
        lines[sender].append(Event("out", name, receiver, 0))
        lines[receiver].append(Event("in", name, sender, 0))
    return Chart([host.encode() for host in (*HOSTS, "fay")[:count]], lines)


def run_chart(draw: Random) -> Chart:
    """The chart of a short run over lanes. Some of its messages aren't received."""
    count = draw.randint(2, 5)
    lines: list[list[Event]] = [[] for _ in range(count)]
    waiting: dict[tuple[int, int], list[bytes]] = {}
    for _ in range(draw.randint(8, 40)):
        full = [lane for lane, names in waiting.items() if names]
        if full and draw.random() < 0.6:
            sender, receiver = draw.choice(full)
            lines[receiver].append(Event("in", waiting[sender, receiver].pop(0), sender, 0))
        else:
            sender, receiver = draw.sample(range(count), 2)
            name = draw.choice(NAMES).encode()
            waiting.setdefault((sender, receiver), []).append(name)
            lines[sender].append(Event("out", name, receiver, 0))
    return Chart([host.encode() for host in HOSTS[:count]], lines)


def ping_pong_chart(draw: Random) -> Chart:
    """Messages that go to and fro between pairs, or round."""
    count = draw.randint(2, 4)
    lines: list[list[Event]] = [[] for _ in range(count)]
    names = draw.choice((("ping", "pong"), ("ball", "ball")))
    at = 0
    for turn in range(draw.randint(4, 16) * 2):
        to = (at + 1) % count if count > 2 and draw.random() < 0.9 else draw.choice([p for p in range(count) if p != at])
        name = names[turn % 2].encode()
        lines[at].append(Event("out", name, to, 0))
        lines[to].append(Event("in", name, at, 0))
        at = to
    return Chart([host.encode() for host in HOSTS[:count]], lines)


def turns_of(chart: Chart) -> dict[tuple[int, int], int]:
    """Which message of its lane each event has, from 1."""
    found: dict[tuple[int, int], int] = {}
    sends = sends_of_receives(chart)
    for p, line in enumerate(chart.lines):
        counts: dict[int, int] = {}
        for i, event in enumerate(line):
            if event.kind == "out":
                counts[event.partner] = counts.get(event.partner, 0) + 1
                found[p, i] = counts[event.partner]
    return found | {receive: found[send] for receive, send in sends.items()}


def in_any_letters(draw: Random, word: str) -> str:
    return draw.choice((word, word, word.upper(), word.title()))


def plain_line(draw: Random, chart: Chart, host: int, event: Event, identity: str | None) -> str:
    """A line of an application's log."""
    is_send = event.kind == "out"
    words = [chart.names[host].decode(), in_any_letters(draw, draw.choice(SENDS if is_send else RECEIVES))]
    peer = chart.names[event.partner].decode()
    # (a host may be called so)
    if peer in ("to", "from") or draw.random() < 0.5:
        words.append(in_any_letters(draw, draw.choice(("to", "from"))))
    words += [peer, event.message.decode()] + ([identity] if identity is not None else [])
    rest = draw.choice(RESTS if identity is not None else ("", " takes=*:*"))
    blank = draw.choice((" ", " ", "\t", "   "))
    return draw.choice(("", "", "  ")) + blank.join(words) + rest + draw.choice(("", "", "", "\r"))


def recorded(draw: Random, chart: Chart) -> Recorded:
    """An application's log of a chart: the hosts are shuffled against each other, and some messages have an id."""
    has_ids = draw.choice((0, 0.5, 1))
    turns = turns_of(chart)
    with_id = {(lane, turn) for lane, turn in messages_of(chart, turns) if draw.random() < has_ids}

    def line(p: int, i: int) -> str:
        event = chart.lines[p][i]
        lane = (p, event.partner) if event.kind == "out" else (event.partner, p)
        identity = f"#{turns[p, i]}" if (lane, turns[p, i]) in with_id else None
        return plain_line(draw, chart, p, event, identity)

    lines = [[line(p, i) for i in range(len(events))] for p, events in enumerate(chart.lines)]
    order = [p for p, events in enumerate(lines) for _ in events]
    draw.shuffle(order)
    return Recorded(lines, order)


def messages_of(chart: Chart, turns: dict[tuple[int, int], int]) -> list[tuple[tuple[int, int], int]]:
    return [((p, chart.lines[p][i].partner), turn) for (p, i), turn in turns.items() if chart.lines[p][i].kind == "out"]


def with_others(draw: Random, lines: list[str]) -> tuple[list[str], list[int]]:
    """The lines, with some between them that say nothing, and the numbers of those that are reported."""
    mixed: list[str] = []
    reported = []
    often = draw.choice((0, 0, 0.1))
    for line in lines:
        if draw.random() < often:
            mixed.append(draw.choice(OTHERS))
            if mixed[-1].strip():
                reported.append(len(mixed))
        mixed.append(line)
    return mixed, reported


class Capture(NamedTuple):
    """How a tool writes a captured message, and the expression for it."""

    form: str
    pattern: str


CAPTURES = (
    Capture(
        "{number} {time} {src} → {dst} SIP 317 Request: {name} sip:{dst}",
        r"(?<src>\S+) → (?<dst>\S+) +\S+ \d+ \w+: (?<name>\w+)",
    ),
    Capture("{src} -> {dst}: {name} (#{number})", r"^(?<src>\w+) -> (?<dst>\w+): (?<name>\w+) \(#(?<id>\d+)\)"),
    Capture("{time} IP {src} > {dst}\n    {name}, length 40", r"IP (?<src>\w+) > (?<dst>\w+)\n *(?<name>\w+), "),
)


def captured_lines(chart: Chart, capture: Capture) -> list[str]:
    """A capture of a level chart, row by row."""
    rows = []
    places = [0] * len(chart.lines)
    ready = [p for p, line in enumerate(chart.lines) if line]
    while ready:
        p = next(p for p in ready if is_level(chart, places, p))
        event = chart.lines[p][places[p]]
        words = {"src": chart.names[p].decode(), "dst": chart.names[event.partner].decode(), "name": event.message.decode()}
        rows.append(capture.form.format(number=len(rows) + 1, time=f"{len(rows) * 0.0173:.6f}", **words))
        places[p] += 1
        places[event.partner] += 1
        ready = [p for p, line in enumerate(chart.lines) if places[p] < len(line)]
    return rows


def is_level(chart: Chart, places: list[int], p: int) -> bool:
    """Whether the next event of p's line is a send whose receive is the next one of its partner's line."""
    event = chart.lines[p][places[p]]
    if event.kind == "in" or places[event.partner] >= len(chart.lines[event.partner]):
        return False
    other = chart.lines[event.partner][places[event.partner]]
    return other.kind == "in" and other.partner == p


def clocked_lines(draw: Random, chart: Chart) -> list[str]:
    """A log for ShiViz as other tools write it, with each event above or below its clock, or in the same line."""
    left = {p: iter(range(len(line))) for p, line in enumerate(chart.lines)}
    order = [p for p, line in enumerate(chart.lines) for _ in line]
    draw.shuffle(order)
    form = draw.choice(("{event}\n{host} {clock}", "{host} {clock}\n{event}", "{host} {clock} {event}"))
    rows = []
    for p in order:
        i = next(left[p])
        event, host = chart.lines[p][i], chart.names[p].decode()
        way = "to" if event.kind == "out" else "from"
        words = f"{event.kind} {event.message.decode()} {way} {chart.names[event.partner].decode()}"
        words += draw.choice(("", "", ", again", ", by 3, or 4"))
        rows.append(form.format(event=words, host=host, clock=f'{{"{host}":{i + 1}}}'))
    return rows


@dataclass
class Happening:
    """
    An event of a run with vector time: which event's message it received, if that is seen, and who received its own,
    each with the receiving event.
    """

    host: int
    text: str
    clock: dict[int, int]
    receives: "Happening | None" = None
    heard: list["Happening"] = field(default_factory=list)


class ClockedRun:
    """A run whose events have vector time. One event may be a receive, and sends to several hosts."""

    def __init__(self, draw: Random):
        self.draw = draw
        self.lines: list[list[Happening]] = [[] for _ in range(draw.randint(2, 5))]
        self.waiting: dict[tuple[int, int], list[Happening]] = {}
        for _ in range(draw.randint(6, 60)):
            self.go_on(draw.randrange(len(self.lines)))

    def go_on(self, host: int) -> None:
        line = self.lines[host]
        before = line[-1].clock if line else {}
        event = Happening(host, self.draw.choice(("works", "got one")), before | {host: len(line) + 1})
        senders = [q for (q, p), left in self.waiting.items() if p == host and left]
        if senders and self.draw.random() < 0.7:
            sent = self.waiting[self.draw.choice(senders), host].pop(0)
            # (else the host has heard of the send before, by another way)
            if before.get(sent.host, 0) < sent.clock[sent.host]:
                event.receives = sent
                sent.heard.append(event)
            event.clock |= {q: max(count, event.clock.get(q, 0)) for q, count in sent.clock.items()}
        if self.draw.random() < 0.5:
            event.text = self.draw.choice(NAMES)
            others = [p for p in range(len(self.lines)) if p != host]
            for peer in self.draw.sample(others, self.draw.choice((1, 1, min(2, len(others))))):
                self.waiting.setdefault((host, peer), []).append(event)
        line.append(event)

    def logged(self) -> list[Happening]:
        """All events, the hosts shuffled against each other."""
        order = [host for host, line in enumerate(self.lines) for _ in line]
        self.draw.shuffle(order)
        left = [iter(line) for line in self.lines]
        return [next(left[host]) for host in order]

    def chart(self, log: list[Happening]) -> Chart:
        """What is seen. An event's sends stand in the order in which the log has their receives."""
        lines = []
        for line in self.lines:
            events = []
            for event in line:
                if event.receives:
                    events.append(Event("in", event.receives.text.encode(), event.receives.host, 0))
                heard = sorted(event.heard, key=lambda other: next(n for n, one in enumerate(log) if one is other))
                events += [Event("out", event.text.encode(), other.host, 0) for other in heard]
            lines.append(events)
        return Chart([host.encode() for host in HOSTS[: len(lines)]], lines)

    def text(self, log: list[Happening]) -> list[str]:
        form = self.draw.choice(("{event}\n{host} {clock}", "{host} {clock}\n{event}", "{host} {clock} {event}"))
        rows = []
        for event in log:
            clock = ", ".join(f'"{HOSTS[host]}":{count}' for host, count in event.clock.items())
            rows.append(form.format(event=event.text, host=HOSTS[event.host], clock="{" + clock + "}"))
        return rows


def worded_lines(draw: Random) -> list[str]:
    """Lines without any sense, whose hosts and messages aren't names."""
    hosts = draw.sample(WORDS, draw.randint(2, 5))
    lines = []
    for turn in range(draw.randint(0, 40)):
        host, peer = draw.choice(hosts), draw.choice(hosts)
        way = draw.choice(("send to", "receive from"))
        identity = f" {turn // 2}" if draw.random() < 0.3 else ""
        lines.append(f"{host} {way} {peer} {draw.choice(WORDS)}{identity}")
    return lines

"""
Compares what `mscview races --from log` reports of drawn recordings with the plain reader's words, event by event.

`judge_luck.py COUNT SEED PROGRAM..`: so many recordings with arrivals and with what receives would have taken, drawn from
SEED on. PROGRAM is the words that `races` stands behind.

Of each recording all races and those that were luck are asked for, in words and as JSON. What a range says is taken apart
into its events, and compared are the events, their order, the status and what is reported on standard error. Neighbours with
the same word have to be one range.
"""

import json
import re
import subprocess
import sys
import tempfile
from collections import Counter
from itertools import product
from pathlib import Path
from random import Random

from drawn_logs import named_otherwise, recorded_lines
from imported_logs import Answer, File, Options
from judged_races import JudgedRace, Shown, answer_of, chart_of, is_unclaimed, judged_races, ranges_of
from log_charts import LogChart, is_one_ended
from names import Refused

RECEIVE = ["instance", "receive", "message", "sender"]
LINE = re.compile(
    r"(?P<instance>\w+): (?P<message>\w+) \((?P<receive>\d+), from (?P<sender>\w+)\) may come before "
    r"(?:(?P<only>\w+) \((?P<at>\d+), (?P<side>from|to) (?P<partner>\w+)\)"
    r"|events (?P<first>\d+) to (?P<last>\d+) \((?P<head>\w+), (?P<between>\.\., )?(?P<tail>\w+)\)); (?P<word>[a-z ]+)"
)


class Unlike(Exception):
    """What a program says isn't in the form that it has to have, or not what the chart has."""


class Events:
    """The events of a chart by their instances' names and their numbers from 1."""

    def __init__(self, made: LogChart):
        self.names = [name.decode() for name in made.chart.names]
        self.lines = dict(zip(self.names, made.chart.lines))

    def message(self, instance: str, number: int) -> str:
        return self.lines[instance][number - 1].message.decode()

    def is_so(self, instance: str, number: int, side: str, partner: str) -> bool:
        event = self.lines[instance][number - 1]
        return side == ("to" if event.kind == "out" else "from") and partner == self.names[event.partner]


def races_in_line(events: Events, text: str) -> list[JudgedRace]:
    """The races that a line states."""
    found = LINE.fullmatch(text)
    if not found:
        raise Unlike(text)
    instance = found["instance"]
    first, last = (int(found["at"]),) * 2 if found["only"] else (int(found["first"]), int(found["last"]))
    numbers = range(first, last + 1)
    messages = [events.message(instance, number) for number in numbers]
    if found["only"]:
        fits = events.is_so(instance, first, found["side"], found["partner"]) and messages == [found["only"]]
    else:
        is_short = len(messages) == 2 and not found["between"]
        is_long = len(messages) > 2 and bool(found["between"])
        fits = (is_short or is_long) and (messages[0], messages[-1]) == (found["head"], found["tail"])
    if not fits:
        raise Unlike(text)
    receive = int(found["receive"])
    return [
        JudgedRace(instance, receive, found["message"], found["sender"], number, message, found["word"])
        for number, message in zip(numbers, messages)
    ]


def races_in_object(text: str) -> list[list[JudgedRace]]:
    """The races of each range of an object."""
    stated = json.loads(text)
    *names, last = stated
    if json.dumps(stated, separators=(",", ":")) != text or (names, last) != (RECEIVE, "ranges"):
        raise Unlike(text)
    receive = tuple(stated[name] for name in names)
    ranges = []
    for each in stated["ranges"]:
        numbers = range(each["first"], each["last"] + 1)
        if list(each) != ["first", "last", "messages", "why"] or len(numbers) != len(each["messages"]):
            raise Unlike(text)
        ranges.append([JudgedRace(*receive, *event, each["why"]) for event in zip(numbers, each["messages"])])
    return ranges


def stated_ranges(made: LogChart, written: bytes, as_json: bool) -> list[list[JudgedRace]]:
    lines = written.decode().splitlines()
    if as_json:
        objects = [races_in_object(line) for line in lines]
        receives = [ranges[0][0][:2] for ranges in objects]
        if len(set(receives)) != len(receives):
            raise Unlike("one receive in two objects")
        return [each for ranges in objects for each in ranges]
    events = Events(made)
    return [races_in_line(events, line) for line in lines]


def fault_of(made: LogChart, shown: Shown, answer: Answer) -> str | None:
    """What is wrong with an answer, or nothing."""
    expected = answer_of(made, shown)
    if answer.diagnostics != expected.diagnostics:
        return f"standard error: {answer.diagnostics!r}"
    if answer.status != expected.status:
        return f"status {answer.status}"
    if expected.status == 2:
        return f"standard output: {answer.written!r}" if answer.written else None
    wanted = judged_races(made, shown)
    try:
        ranges = stated_ranges(made, answer.written, shown.as_json)
    except (Unlike, ValueError, LookupError) as unlike:
        return f"its form: {unlike}"
    stated = [race for each in ranges for race in each]
    if stated != wanted:
        only = [race for race in stated if race not in wanted] + [race for race in wanted if race not in stated]
        return f"a race: {only[0] if only else 'their order'}"
    return None if ranges == list(ranges_of(stated)) else "ranges that could be one"


def drawn_files(draw: Random, lines: list[str]) -> list[File]:
    """One log, or one for each host, in any order."""
    if draw.random() < 0.6:
        return [File("log", "".join(line + "\n" for line in lines).encode())]
    of_host: dict[str, str] = {}
    for line in lines:
        of_host[line.split()[0]] = of_host.get(line.split()[0], "") + line + "\n"
    order = draw.sample(sorted(of_host), len(of_host))
    return [File(f"log{number}", of_host[host].encode()) for number, host in enumerate(order)]


def of_one_host(draw: Random, lines: list[str]) -> list[str]:
    """The lines of one host alone."""
    host = draw.choice(sorted({line.split()[0] for line in lines}))
    return [line for line in lines if line.split()[0] == host]


def drawn_recording(draw: Random) -> tuple[list[File], Options]:
    lines = recorded_lines(draw)
    if draw.random() < 0.05:
        lines = of_one_host(draw, lines)
    peers: tuple[tuple[str, tuple[str, ...]], ...] = ()
    if draw.random() < 0.4:
        lines, peers = named_otherwise(draw, lines)
    hosts = tuple(draw.sample(("cid", "ann"), draw.choice((0, 0, 0, 1, 2))))
    return drawn_files(draw, lines), Options(hosts=hosts, peers=peers)


class Judge:
    """Asks a program, in a folder, and counts what it answers."""

    def __init__(self, program: list[str], room: Path):
        self.program, self.room = program, room
        self.failed = 0
        self.seen: Counter[str] = Counter()

    def ask(self, files: list[File], options: Options, shown: Shown) -> Answer:
        words = ["races", *options.words(), *shown.words(), *(file.name for file in files)]
        done = subprocess.run(self.program + words, capture_output=True, cwd=self.room, check=False)
        return Answer(done.returncode, done.stdout, done.stderr)

    def judge(self, number: int, files: list[File], options: Options, receives: bool) -> None:
        for file in files:
            (self.room / file.name).write_bytes(file.text)
        made = chart_of(files, options)
        self.seen.update(race.word for race in judged_races(made, Shown()))
        self.seen["recordings"] += 1
        self.seen["recordings with one end of each message"] += is_one_ended(made)
        self.seen["recordings of which no race is claimed"] += is_unclaimed(made, Shown())
        for luck, as_json in product((False, True), repeat=2):
            shown = Shown(luck, receives, as_json)
            fault = fault_of(made, shown, self.ask(files, options, shown))
            if fault:
                self.failed += 1
                print(f"FAILED recording {number}, {options.words() + shown.words()}: {fault}", flush=True)


def main(count: int, seed: int, program: list[str]) -> int:
    with tempfile.TemporaryDirectory() as room:
        judge = Judge(program, Path(room))
        number = seed
        while judge.seen["recordings"] < count:
            draw = Random(f"luck {number}")
            files, options = drawn_recording(draw)
            try:
                judge.judge(number, files, options, draw.random() < 0.2)
            except Refused:
                judge.seen["refused"] += 1
            number += 1
    for word, many in sorted(judge.seen.items()):
        print(many, word)
    print(f"{judge.failed} answered otherwise")
    return int(judge.failed > 0)


if __name__ == "__main__":
    sys.exit(main(int(sys.argv[1]), int(sys.argv[2]), sys.argv[3:]))

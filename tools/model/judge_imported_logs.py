"""
Compares what `mscview import` answers to logs with the charts that they were written from, and with the plain model.

`judge_imported_logs.py COUNT RUNS [SEED [MSCRUN MSCVIEW]]`: COUNT drawn schedules and level charts, and RUNS runs whose
logs are cut. Without programs the plain model alone answers, and of the charts of logs for ShiViz none is exported.

- An application's logs of the schedules' charts, captures of the level ones, and logs for ShiViz, also as `mscview export`
  writes them, come back as the same chart, and nothing is reported but lines that say nothing and what a capture is.
- Of each run the log without its first lines, for each such beginning, and the log without each line, and logs that go to
  and fro whose hosts begin at different places, come to a possible chart, as `mscrun check` says; so do lines without any
  sense. It is the plain model's, and so is what is reported.
"""

import subprocess
import sys
import tempfile
from collections import Counter
from collections.abc import Callable, Iterator
from pathlib import Path
from random import Random

from chart_texts import Chart, chart_text, read_chart
from charts import events_before
from drawn_logs import cut_lines, drawn_lines
from drawn_recordings import (
    CAPTURES,
    ClockedRun,
    captured_lines,
    clocked_lines,
    level_chart,
    ping_pong_chart,
    recorded,
    run_chart,
    scheduled_chart,
    with_others,
    worded_lines,
)
from imported_logs import Answer, File, Options, imported

# Python's and this project's expression for what `mscview export --to shiviz` writes.
CLOCKS = r"(?<host>\S*) (?<clock>\{.*\}) (?<event>.*)"


class Model:
    """What the plain model answers."""

    def imported(self, files: list[File], options: Options) -> Answer:
        return imported(files, options)

    def is_possible(self, text: bytes) -> bool:
        events_before(read_chart(text))
        return True

    def exported(self, text: bytes) -> bytes | None:
        return None


class Programs(Model):
    """What the programs answer, each with files in a folder."""

    def __init__(self, mscrun: str, mscview: str, room: Path):
        self.mscrun, self.mscview, self.room = mscrun, mscview, room

    def run(self, *words: str) -> Answer:
        done = subprocess.run(words, capture_output=True, cwd=self.room, check=False)
        return Answer(done.returncode, done.stdout, done.stderr)

    def imported(self, files: list[File], options: Options) -> Answer:
        for file in files:
            (self.room / file.name).write_bytes(file.text)
        return self.run(self.mscview, "import", *options.words(), *(file.name for file in files))

    def is_possible(self, text: bytes) -> bool:
        (self.room / "chart").write_bytes(text)
        answer = self.run(self.mscrun, "check", "chart")
        return answer.status in (0, 1) and answer.diagnostics == b""

    def exported(self, text: bytes) -> bytes | None:
        (self.room / "chart").write_bytes(text)
        answer = self.run(self.mscview, "export", "--to", "shiviz", "chart")
        return answer.written if answer.status == 0 and answer.diagnostics == b"" else b""


class Judge:
    """Compares answers, and counts what they are."""

    def __init__(self, programs: Model):
        self.programs = programs
        self.failed = 0
        self.seen: Counter[str] = Counter()

    def fail(self, what: str, *stated: object) -> None:
        self.failed += 1
        print("FAILED", what, *stated, flush=True)

    def comes_back(self, what: str, files: list[File], options: Options, chart: Chart, reported: bytes) -> None:
        """Compares with the chart that the log was written from, and what has to be reported of it."""
        options = options._replace(hosts=tuple(name.decode() for name in chart.names))
        wanted = Answer(0, chart_text(chart), read_reported(chart) + reported)
        if imported(files, options) != wanted:
            self.fail(what, "by the plain model", files, options.words(), imported(files, options), wanted)
        answer = self.programs.imported(files, options)
        if answer != wanted:
            self.fail(what, files, options.words(), answer, wanted)
        self.seen[what] += 1

    def comes_to(self, what: str, files: list[File], options: Options) -> None:
        """Compares with the plain model, and has the chart checked."""
        wanted = imported(files, options)
        answer = self.programs.imported(files, options)
        if answer != wanted:
            self.fail(what, files, options.words(), answer, wanted)
        elif answer.status == 0 and not self.programs.is_possible(answer.written):
            self.fail(what, "isn't possible", files, options.words(), answer)
        self.seen[what] += 1
        self.count(what, wanted)

    def count(self, what: str, wanted: Answer) -> None:
        """Counts logs of a kind of which something is reported."""
        if wanted.status == 2:
            self.seen[f"{what}, {wanted.diagnostics.split()[1].decode()}"] += 1
        for words in ("invented", "lost", "overtakes", "cycle", "one end"):
            self.seen[f"{what}, {words}"] += words.encode() in wanted.diagnostics

    def report(self) -> None:
        for what, number in self.seen.items():
            if number:
                print(number, what)


def read_reported(chart: Chart) -> bytes:
    """What is reported of how much was read, of a log with all events of a chart."""
    events, hosts = sum(map(len, chart.lines)), len(chart.names)
    first = f"1 event of {hosts} hosts is read" if events == 1 else f"{events} events of {hosts} hosts are read"
    lineless = [f"{name.decode()} has no line of its own" for name, line in zip(chart.names, chart.lines) if not line]
    return "".join(line + "\n" for line in [first, *lineless]).encode()


def text_of(lines: list[str], ends: bool = True) -> bytes:
    return ("\n".join(lines) + ("\n" if ends and lines else "")).encode()


def others_diagnostics(places: list[str], files: list[File]) -> bytes:
    """What is reported of lines that say nothing, of all lines of these files."""
    if not places:
        return b""
    lines = sum(file.text.count(b"\n") + (not file.text.endswith(b"\n")) for file in files if file.text)
    one = f"1 of {lines} lines doesn't match, {places[0]}\n"
    several = f"{len(places)} of {lines} lines don't match, the first is {places[0]}\n"
    return (one if len(places) == 1 else several).encode()


def scheduled_charts(count: int, seed: int) -> Iterator[tuple[Random, Chart]]:
    """So many charts with receives, of schedules that are drawn from a seed on."""
    number = seed
    while count > 0:
        chart = scheduled_chart(number)
        if any(event.kind == "in" for line in chart.lines for event in line):
            yield Random(f"schedule {number}"), chart
            count -= 1
        number += 1


def judge_recorded(judge: Judge, count: int, seed: int) -> None:
    """Logs of drawn schedules, as one file, or as one for each host, in any order."""
    for draw, chart in scheduled_charts(count, seed):
        log = recorded(draw, chart)
        if draw.random() < 0.7:
            lines, others = with_others(draw, log.merged())
            places = [f"line {other}" for other in others]
            files = [File("log", text_of(lines, draw.random() < 0.8))]
        else:
            mixed = {host: with_others(draw, lines) for host, lines in enumerate(log.lines)}
            order = draw.sample(sorted(mixed), len(mixed))
            places = [f"host{host}.log:{other}" for host in order for other in mixed[host][1]]
            files = [File(f"host{host}.log", text_of(mixed[host][0])) for host in order]
        judge.comes_back("application's logs", files, Options(), chart, others_diagnostics(places, files))


def judge_captured(judge: Judge, count: int, seed: int) -> None:
    """Captures of level charts."""
    reported = b"only the order at the tap is known\n"
    for number in range(seed, seed + count):
        draw = Random(f"captured {number}")
        chart = level_chart(draw)
        capture = draw.choice(CAPTURES)
        files = [File("capture", text_of(captured_lines(chart, capture)))]
        judge.comes_back("captures", files, Options(pattern=capture.pattern), chart, reported)


def judge_clocked(judge: Judge, count: int, seed: int) -> None:
    """Logs for ShiViz of drawn schedules, as they are exported, and as others write them."""
    options = Options(form="shiviz")
    for draw, chart in scheduled_charts(count, seed):
        text = text_of(clocked_lines(draw, chart))
        judge.comes_back("logs for ShiViz", [File("log", text)], options, chart, b"")
        exported = judge.programs.exported(chart_text(chart))
        if exported is not None:
            judge.comes_back("exported logs", [File("log", exported)], options, chart, b"")
            files = [File("log", exported)]
            judge.comes_back("exported logs by a pattern", files, Options(pattern=CLOCKS), chart, others_diagnostics(["line 1"], files))


def judge_timed(judge: Judge, count: int, seed: int) -> None:
    """Logs with vector time alone: what can be seen by it comes back; and without their first lines."""
    reported = b"a receive at which no entry of the clock grew isn't seen\n"
    options = Options(form="shiviz")
    number = seed
    while count > 0:
        draw = Random(f"timed {number}")
        run = ClockedRun(draw)
        log = run.logged()
        chart = run.chart(log)
        if any(chart.lines):
            lines = run.text(log)
            judge.comes_back("logs with clocks alone", [File("log", text_of(lines))], options, chart, reported)
            lines = text_of(lines).decode().splitlines()[draw.randint(1, len(lines)):]
            judge.comes_to("logs with clocks that begin in the middle", [File("log", text_of(lines))], options)
            count -= 1
        number += 1


def judge_cut(judge: Judge, runs: int, seed: int) -> None:
    """Logs of runs without their first lines, and without one line."""
    for number in range(seed, seed + runs):
        draw = Random(f"cut {number}")
        lines = recorded(draw, run_chart(draw)).merged()
        for at in range(len(lines)):
            judge.comes_to("logs that begin in the middle", [File("log", text_of(lines[at:]))], Options())
            judge.comes_to("logs without a line", [File("log", text_of(lines[:at] + lines[at + 1:]))], Options())
        first = draw.randint(1, len(lines))
        last = draw.randint(first, len(lines) + 1)
        judge.comes_to("some lines of logs", [File("log", text_of(lines))], Options(first=first, last=last))


def judge_ping_pong(judge: Judge, runs: int, seed: int) -> None:
    """Logs of messages to and fro, of which each host's begins, and some end, at another place."""
    for number in range(seed, seed + 5 * runs):
        draw = Random(f"to and fro {number}")
        log = recorded(draw, ping_pong_chart(draw))
        kept = [lines[draw.randint(0, 6):] for lines in log.lines]
        kept = [lines[: len(lines) - draw.choice((0, 0, 1, 3))] for lines in kept]
        order = draw.sample(range(len(kept)), len(kept))
        files = [File(f"host{host}.log", text_of(kept[host])) for host in order]
        judge.comes_to("logs to and fro", files, Options())


def judge_senseless(judge: Judge, count: int, seed: int) -> None:
    """Lines without any sense, and recordings of lanes that aren't always first in, first out."""
    for number in range(seed, seed + count):
        draw = Random(f"senseless {number}")
        lines = draw.choice((drawn_lines, cut_lines, worded_lines))(draw)
        hosts = tuple(draw.sample(("dot", "ann", "10.1.3.7"), draw.choice((0, 0, 1, 2))))
        peers = (("bob", ("cid", "<0.81.0>")), ("to", ("in",)))[: draw.choice((0, 0, 1, 2))]
        judge.comes_to("lines without sense", [File("log", text_of(lines))], Options(hosts=hosts, peers=peers))


def main(count: str, runs: str, seed: str = "0", mscrun: str = "", mscview: str = "") -> int:
    judges: list[tuple[Callable[[Judge, int, int], None], str]] = [
        (judge_recorded, count), (judge_captured, count), (judge_clocked, count), (judge_timed, count),
        (judge_cut, runs), (judge_ping_pong, runs), (judge_senseless, count),
    ]
    with tempfile.TemporaryDirectory() as room:
        judge = Judge(Programs(mscrun, mscview, Path(room)) if mscview else Model())
        for does, many in judges:
            does(judge, int(many), int(seed))
    judge.report()
    print(f"{judge.failed} answered otherwise")
    return int(judge.failed > 0)


if __name__ == "__main__":
    sys.exit(main(*sys.argv[1:]))

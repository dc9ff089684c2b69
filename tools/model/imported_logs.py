"""
What `mscview import` answers to logs.

`imported_logs.py [--from shiviz] [--pattern REGEX] [--hosts a,b] [--peer A=x,y].. [--from-line N] [--to-line N] FILE..`
writes it.
"""

import argparse
import sys
from typing import NamedTuple

from chart_texts import chart_text
from log_charts import chart_of_log, diagnostics, unmatched_diagnostics
from log_patterns import Expression, read_by
from logs import Log, place_in
from names import Refused
from shiviz_logs import Clocked, add_clocked, read_shiviz

# More lines than a file has.
ALL = 1 << 62


class Answer(NamedTuple):
    """An exit status, and what goes to standard output and to standard error."""

    status: int
    written: bytes
    diagnostics: bytes


class Options(NamedTuple):
    """How logs are read: `log` or `shiviz`, by which expression, and which lines; and what hosts are called."""

    form: str = "log"
    pattern: str | None = None
    hosts: tuple[str, ...] = ()
    peers: tuple[tuple[str, tuple[str, ...]], ...] = ()
    first: int = 1
    last: int = ALL

    def words(self) -> list[str]:
        """The words of the command line."""
        words = ["--from", self.form]
        words += ["--pattern", self.pattern] if self.pattern is not None else []
        words += ["--hosts", ",".join(self.hosts)] if self.hosts else []
        for name, others in self.peers:
            words += ["--peer", f"{name}={','.join(others)}"]
        words += ["--from-line", str(self.first)] if self.first > 1 else []
        words += ["--to-line", str(self.last)] if self.last < ALL else []
        return words


class File(NamedTuple):
    name: str
    text: bytes


def read_file(log: Log, file: File, files: int, options: Options) -> list[Clocked]:
    """Adds what a file says, and answers its events with clocks."""
    lines = file.text.decode("utf-8", "surrogateescape").split("\n")
    count = len(lines) if lines[-1] else len(lines) - 1
    log.line_count += max(0, min(count, options.last) - (options.first - 1))

    def place(number: int) -> str:
        return place_in(files, file.name, number)

    if options.pattern is not None:
        return read_by(log, Expression(options.pattern), lines, place, options.first, options.last)
    if options.form == "shiviz":
        events, unmatched = read_shiviz(lines, place, options.first, options.last)
        log.unmatched += unmatched
        return events
    for number, line in enumerate(lines, 1):
        if options.first <= number <= options.last:
            log.add(line, place(number))
    return []


def read_log(files: list[File], options: Options) -> Log:
    """What the files say. F38: nothing in them matches. F51: nothing in them is a receive."""
    peers = {word: name for name, words in reversed(options.peers) for word in words}
    log = Log(hosts=list(options.hosts), peers=peers)
    clocked = [event for file in files for event in read_file(log, file, len(files), options)]
    add_clocked(log, clocked)
    log.unmatched.sort(key=lambda place: place_order(place, files))
    passed = [entry for entry in log.entries if entry.kind != "arrive"]
    unread = [*unmatched_diagnostics(log.unmatched, log.line_count), *log.unread[:1]]
    if not passed:
        raise Refused("F38", behind=unread)
    if all(entry.kind == "send" for entry in passed):
        raise Refused("F51", behind=[sends_text(len(passed)), *unread])
    return log


def sends_text(sends: int) -> str:
    """How many lines say a message, though none is a receive."""
    return "1 line matches, and it isn't a receive" if sends == 1 else f"{sends} lines match, and none is a receive"


def place_order(place: str, files: list[File]) -> tuple[int, int]:
    """Where a place stands in the files."""
    name, number = place.rsplit(" " if len(files) == 1 else ":", 1)
    return next((n for n, file in enumerate(files) if file.name == name), 0), int(number)


def imported(files: list[File], options: Options) -> Answer:
    try:
        made = chart_of_log(read_log(files, options))
    except Refused as refused:
        return Answer(2, b"", refused.text)
    stated = "".join(line + "\n" for line in diagnostics(made))
    return Answer(0, chart_text(made.chart), stated.encode("utf-8", "surrogateescape"))


def main() -> int:
    words = argparse.ArgumentParser()
    words.add_argument("--from", dest="form", default="log")
    words.add_argument("--pattern")
    words.add_argument("--hosts", default="")
    words.add_argument("--peer", action="append", default=[])
    words.add_argument("--from-line", type=int, default=1)
    words.add_argument("--to-line", type=int, default=ALL)
    words.add_argument("files", nargs="+")
    given = words.parse_args()
    peers = tuple((name, tuple(others.split(","))) for name, others in (peer.split("=", 1) for peer in given.peer))
    hosts = tuple(given.hosts.split(",")) if given.hosts else ()
    options = Options(given.form, given.pattern, hosts, peers, given.from_line, given.to_line)
    files = []
    for name in given.files:
        with open(name, "rb") as file:
            files.append(File(name, file.read()))
    answer = imported(files, options)
    sys.stdout.buffer.write(answer.written)
    sys.stderr.buffer.write(answer.diagnostics)
    return answer.status


if __name__ == "__main__":
    sys.exit(main())

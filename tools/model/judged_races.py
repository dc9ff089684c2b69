"""
What `mscview races --from log` answers, by the plain model: each race's word, in ranges that are split where it changes.
The status is 1 where one is shown; else 3 where some are asked for and each is begun in the middle, and else 0.

`judged_races.py races --from log [--luck] [--receives] [--json] [--hosts a,b] [--peer A=x,y].. FILE..` writes it.
"""

import argparse
import json
import sys
from collections.abc import Iterator
from typing import NamedTuple

from chart_texts import Event
from imported_logs import Answer, File, Options, read_log
from log_charts import ONE_ENDED, LogChart, chart_of_log, diagnostics, host_diagnostics, is_one_ended
from luck import BEGUN, LUCK, words_of_races
from names import Refused

UNCLAIMED = "no race is claimed: each is begun in the middle"


class Shown(NamedTuple):
    """What is shown of the races of a log."""

    luck: bool = False
    receives: bool = False
    as_json: bool = False

    def words(self) -> list[str]:
        given = {"--luck": self.luck, "--receives": self.receives, "--json": self.as_json}
        return [word for word, is_given in given.items() if is_given]


class JudgedRace(NamedTuple):
    """One race, by names and by numbers from 1, with its word."""

    instance: str
    receive: int
    message: str
    sender: str
    earlier: int
    earlier_message: str
    word: str


def judged_races(made: LogChart, shown: Shown) -> list[JudgedRace]:
    """The races that are shown, one by one, by instance, receive and earlier event."""
    found = []
    for (p, e, r), word in words_of_races(made).items():
        line = made.chart.lines[p]
        if (shown.luck and word != LUCK) or (shown.receives and line[e].kind == "out"):
            continue
        receive = line[r]
        names = (made.chart.names[p], receive.message, made.chart.names[receive.partner], line[e].message)
        instance, message, sender, earlier = (name.decode() for name in names)
        found.append(JudgedRace(instance, r + 1, message, sender, e + 1, earlier, word))
    return found


def ranges_of(races: list[JudgedRace]) -> Iterator[list[JudgedRace]]:
    """The races of one receive whose earlier events are neighbours and whose words are the same, as few as can be."""
    together: list[JudgedRace] = []
    for race in races:
        after = together and together[-1]._replace(earlier=race.earlier, earlier_message=race.earlier_message)
        if together and (after != race or together[-1].earlier + 1 != race.earlier):
            yield together
            together = []
        together.append(race)
    if together:
        yield together


def event_words(made: LogChart, race: JudgedRace) -> str:
    line = made.chart.lines[made.chart.names.index(race.instance.encode())]
    event: Event = line[race.earlier - 1]
    partner = made.chart.names[event.partner].decode()
    return f"{race.earlier_message} ({race.earlier}, {'to' if event.kind == 'out' else 'from'} {partner})"


def range_words(made: LogChart, together: list[JudgedRace]) -> str:
    first, last = together[0], together[-1]
    if first == last:
        return event_words(made, first)
    between = ", " if len(together) == 2 else ", .., "
    return f"events {first.earlier} to {last.earlier} ({first.earlier_message}{between}{last.earlier_message})"


def race_lines(made: LogChart, races: list[JudgedRace]) -> list[str]:
    return [
        f"{race.instance}: {race.message} ({race.receive}, from {race.sender}) may come before "
        f"{range_words(made, together)}; {race.word}"
        for together in ranges_of(races)
        for race in together[:1]
    ]


def race_objects(races: list[JudgedRace]) -> list[str]:
    objects: dict[tuple[str, int], dict] = {}
    for together in ranges_of(races):
        race = together[0]
        receive = {"instance": race.instance, "receive": race.receive, "message": race.message, "sender": race.sender}
        stated_range = {
            "first": race.earlier,
            "last": together[-1].earlier,
            "messages": [each.earlier_message for each in together],
            "why": race.word,
        }
        objects.setdefault((race.instance, race.receive), receive | {"ranges": []})["ranges"].append(stated_range)
    return [json.dumps(each, separators=(",", ":")) for each in objects.values()]


def chart_of(files: list[File], options: Options) -> LogChart:
    return chart_of_log(read_log(files, options))


def is_unclaimed(made: LogChart, shown: Shown) -> bool:
    """Whether there are races that are asked for, luck or not, and each is begun in the middle."""
    return {race.word for race in judged_races(made, shown._replace(luck=False))} == {BEGUN}


def diagnostics_of(made: LogChart, shown: Shown) -> bytes:
    """What standard error has."""
    lines = diagnostics(made, takes=True) + [UNCLAIMED] * is_unclaimed(made, shown)
    return "".join(line + "\n" for line in lines).encode("utf-8", "surrogateescape")


def status_of(made: LogChart, shown: Shown) -> int:
    if judged_races(made, shown):
        return 1
    return 3 if is_unclaimed(made, shown) else 0


def answer_of(made: LogChart, shown: Shown) -> Answer:
    """What is answered to a log that comes to a chart."""
    if is_one_ended(made):
        return Answer(2, b"", Refused("F52", behind=[ONE_ENDED, *host_diagnostics(made)]).text)
    races = judged_races(made, shown)
    lines = race_objects(races) if shown.as_json else race_lines(made, races)
    return Answer(status_of(made, shown), "".join(line + "\n" for line in lines).encode(), diagnostics_of(made, shown))


def answered(files: list[File], options: Options, shown: Shown) -> Answer:
    try:
        return answer_of(chart_of(files, options), shown)
    except Refused as refused:
        return Answer(2, b"", refused.text)


def main() -> int:
    words = argparse.ArgumentParser()
    words.add_argument("command", choices=["races"])
    words.add_argument("--from", dest="form", choices=["log"], required=True)
    for word in ("--luck", "--receives", "--json"):
        words.add_argument(word, action="store_true")
    words.add_argument("--hosts", default="")
    words.add_argument("--peer", action="append", default=[])
    words.add_argument("files", nargs="+")
    given = words.parse_args()
    peers = tuple((name, tuple(others.split(","))) for name, others in (peer.split("=", 1) for peer in given.peer))
    options = Options(hosts=tuple(given.hosts.split(",")) if given.hosts else (), peers=peers)
    files = []
    for name in given.files:
        with open(name, "rb") as file:
            files.append(File(name, file.read()))
    answer = answered(files, options, Shown(given.luck, given.receives, given.json))
    sys.stdout.buffer.write(answer.written)
    sys.stderr.buffer.write(answer.diagnostics)
    return answer.status


if __name__ == "__main__":
    sys.exit(main())

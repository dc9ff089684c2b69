"""
Tries the plain model of logs with drawn ones.

`judge_logs.py LOGS RECORDINGS SEED`: so many logs come to a chart that is possible, and to the same one in whichever
order the files of their hosts are handed over. Of so many recordings each race has the word that the sentences of the
definition give, read one by one; and for luck some run comes to a moment at which the earlier receive could have had
the message. Of so many more, which are whole and whose ways are first in, first out, each race has the same word with
ids and without, and each arrival the same message.
"""

import sys
from collections import Counter
from random import Random

from chart_texts import chart_text, read_chart
from charts import events_before, races, sends_of_receives
from drawn_logs import cut_lines, drawn_lines, recorded_lines, whole_lines, without_ids
from log_charts import LogChart, chart_of_log
from logs import Entry, Log, Message
from luck import LUCK, words_of_races
from names import Refused


def log_of(lines: list[str]) -> Log:
    log = Log()
    for number, line in enumerate(lines, 1):
        log.add(line, f"log:{number}")
    return log


def chart_of(lines: list[str]) -> LogChart | None:
    """The chart of lines, or none where fewer than two hosts are in them."""
    try:
        return chart_of_log(log_of(lines))
    except Refused as refused:
        if refused.args[0] != "F8":
            raise
        return None


def judge_chart(made: LogChart) -> None:
    """A chart is possible and has a text, and its logged events are in the order of their lines."""
    events_before(made.chart)
    assert read_chart(chart_text(made.chart)) == made.chart
    left_out = set(made.lost) | {message for message, _ in made.overtaking}
    for host, line in made.log.lines().items():
        wanted = [
            entry.number
            for entry in line
            if entry.host != entry.peer
            for message in [message_of(made, entry)]
            if message not in left_out
        ]
        items = made.lines[made.hosts.index(host)]
        entries = [message.send if kind == "out" else message.receive for kind, message in items]
        assert [entry.number for entry in entries if entry] == wanted


def in_another_order(draw: Random, lines: list[str]) -> list[str]:
    """The lines with a file for each host, and these one after the other in an order that is drawn."""
    files: dict[str, list[str]] = {}
    for line in lines:
        files.setdefault(line.split()[0], []).append(line)
    return [line for host in draw.sample(sorted(files), len(files)) for line in files[host]]


def by_names(made: LogChart) -> dict[bytes, list[tuple[str, bytes, bytes]]]:
    """The chart's lines by their instances' names, whichever order these have."""
    names = made.chart.names
    return {
        name: [(event.kind, event.message, names[event.partner]) for event in line]
        for name, line in zip(names, made.chart.lines)
    }


def judge_order(draw: Random, lines: list[str], made: LogChart) -> None:
    """In whichever order the files are handed over, chart and races are the same but for the order of instances."""
    other = chart_of(in_another_order(draw, lines))
    assert other is not None
    assert by_names(other) == by_names(made)
    assert set(races(other.chart)) == set(races(made.chart))


def message_of(made: LogChart, entry: Entry) -> Message:
    return next(m for m in made.messages if entry in (m.send, m.receive))


def closure(log: Log, messages: list[Message]) -> set[tuple[int, int]]:
    """Which line of the whole log is before which, by the three rules as they are stated and then by going on."""
    before = {(m.send.number, m.receive.number) for m in messages if m.send and m.receive}
    for line in log.lines().values():
        for at, later in enumerate(line):
            for earlier in line[:at]:
                same = earlier.kind == "receive" and earlier.peer == later.peer
                if later.kind == "send" or same:
                    before.add((earlier.number, later.number))
    numbers = [entry.number for entry in log.entries if entry.kind != "arrive"]
    after: dict[int, int] = {number: 0 for number in numbers}
    for first, second in before:
        after[first] |= 1 << second
    for middle in numbers:
        for first in numbers:
            if after[first] >> middle & 1:
                after[first] |= after[middle]
    return {(a, b) for a in numbers for b in numbers if after[a] >> b & 1}


def is_named(e: Message, other: Message) -> bool:
    """Whether sender and name of the other message fit what is reported of the receive of this one."""
    takes = e.receive.takes
    return not takes or any(
        peer in ("*", other.lane[0])
        and (names in ("*", other.name) or names[-1] == "*" and other.name.startswith(names[:-1]))
        for peer, names in takes
    )


def arrived_first(other: Message, e: Message) -> bool:
    return bool(other.arrival and e.arrival and other.arrival.number < e.arrival.number)


def stands_before(made: LogChart, e: Message, r: Message) -> bool:
    """
    Whether the sender sent one more message before this one, that the receive would take and that was taken, but not
    earlier. What nobody took is lost.
    """
    return any(
        m.lane == r.lane
        and m.send is not None
        and m.send.number < r.send.number
        and m.receive is not None
        and m.receive.number >= e.receive.number
        and is_named(e, m)
        and not arrived_first(m, e)
        for m in made.messages
    )


def stated_words(made: LogChart) -> dict[tuple[int, int, int], str]:
    """Each race with its word, by the sentences."""
    order = closure(made.log, made.messages)
    before, numbers = events_before(made.chart)
    found = {}
    for name, earlier, receive in races(made.chart):
        p, i, j = made.chart.names.index(name), earlier - 1, receive - 1
        kind, e = made.lines[p][i]
        r = made.lines[p][j][1]
        ahead = [made.lines[q][k] for q, k in numbers if before[p, j] >> numbers[q, k] & 1]
        if (kind == "out" and e.send is None) or r.send is None or any(side == "out" and m.send is None for side, m in ahead):
            word = "begun in the middle"
        elif kind == "out":
            word = "the earlier is a send"
        elif (e.receive.number, r.send.number) in order:
            word = "ordered by what is left out"
        elif not is_named(e, r):
            word = "it would not take it"
        elif arrived_first(r, e):
            word = "passed over"
        elif stands_before(made, e, r):
            word = "behind another"
        else:
            word = LUCK
        found[p, i, j] = word
    return found


def could_come_next(made: LogChart, race: tuple[int, int, int]) -> bool:
    """
    Whether the earlier receive could have had the message: all that its line has before it has come, and the message's
    send, with all that is before these; it hasn't, and of what waits on the lane before the message it would take none.
    """
    p, i, j = race
    chart, sends = made.chart, sends_of_receives(made.chart)
    before, numbers = events_before(chart)
    q, k = sends[p, j]
    come = 0
    for event in [(q, k)] + [(p, earlier) for earlier in range(i)]:
        come |= before[event] | 1 << numbers[event]
    e = made.lines[p][i][1]
    waiting = [
        made.lines[p][d][1]
        for (host, d), (sender, o) in sends.items()
        if (host, sender) == (p, q) and o < k and not come >> numbers[p, d] & 1
    ]
    has_come = come >> numbers[p, i] & 1 or come >> numbers[p, j] & 1
    return not has_come and not any(is_named(e, m) and not arrived_first(m, e) for m in waiting)


def judge_words(made: LogChart, tally: Counter) -> None:
    words = words_of_races(made)
    assert words == stated_words(made)
    assert all(could_come_next(made, race) for race, word in words.items() if word == LUCK)
    luck = Counter((p, i, made.lines[p][j][1].lane[0]) for (p, i, j), word in words.items() if word == LUCK)
    assert all(count == 1 for count in luck.values())
    tally.update(words.values())


def arrivals_in(made: LogChart) -> dict[int, Message]:
    """The message of each arrival, by the arrival's line."""
    return {message.arrival.number: message for message in made.messages if message.arrival}


def waits_behind(message: Message, messages: dict[int, Message]) -> bool:
    """Whether another message of its stream waited when it arrived."""
    at = message.arrival.number
    return any(
        (other.lane, other.name) == (message.lane, message.name)
        and number < at
        and (other.receive is None or at < other.receive.number)
        for number, other in messages.items()
    )


def judge_ids(lines: list[str]) -> int:
    """Ids say nothing new of a whole recording. Given back is how many arrivals wait behind one of their stream."""
    made, plain = chart_of(lines), chart_of(without_ids(lines))
    if made is None or plain is None:
        return 0
    assert words_of_races(made) == words_of_races(plain)
    arrivals, own = arrivals_in(plain), arrivals_in(made)
    assert {at: m.send.number for at, m in arrivals.items()} == {at: m.send.number for at, m in own.items()}
    assert len(arrivals) == sum(entry.kind == "arrive" for entry in plain.log.entries)
    return sum(waits_behind(message, arrivals) for message in arrivals.values())


def main(logs: int, recordings: int, seed: int) -> int:
    freed = charts = 0
    for number in range(logs):
        draw = Random(f"log {seed} {number}")
        lines = draw.choice((drawn_lines, cut_lines))(draw)
        made = chart_of(lines)
        if made:
            judge_chart(made)
            judge_order(draw, lines, made)
            charts += 1
            freed = max(freed, len(made.freed))
    print(f"{logs} drawn logs: {charts} charts, all possible; at most {freed} receives freed")
    tally: Counter = Counter()
    for number in range(recordings):
        made = chart_of(recorded_lines(Random(f"recording {seed} {number}")))
        if made:
            judge_chart(made)
            judge_words(made, tally)
    reported = ", ".join(f"{count} {word}" for word, count in sorted(tally.items()))
    print(f"{recordings} drawn recordings: each race has its word: {reported}")
    behind = sum(judge_ids(whole_lines(Random(f"whole {seed} {number}"))) for number in range(recordings))
    print(f"{recordings} whole ones: the same words without ids; {behind} arrivals behind another of their stream")
    return 0


if __name__ == "__main__":
    sys.exit(main(*map(int, sys.argv[1:4])))

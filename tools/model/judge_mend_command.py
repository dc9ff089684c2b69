"""
Compares what `mscview mend` answers with the plain conditions, and with a search over all places of one message.

`judge_mend_command.py MSCRUN MSCVIEW COUNT SEED`: the charts are those of all cases and examples, and of so many drawn
schedules, each with another seed, from SEED on. Where a chart is answered, `mscrun check` has to accept it, the pair is no
race in it, and no two old events have become one; where none is, no message does, in charts of few events by a search over
all places. What is reported has to be the races that go, stay and come; of enforced pairs what `why` writes. `mend --all` has
to be the plain choice of the message that leaves the fewest race pairs, one after another.
"""

import pathlib
import random
import subprocess
import sys
import tempfile
from collections import Counter

from chart_texts import chart_text, read_chart
from charts import events_before, sends_of_receives
from mended_charts import is_before, is_mended, mended, moved, race_pairs, searched, with_message

FEW = 20
FEW_PAIRS = 60
SHOWN = 10
TRIED_IN_ALL = 20_000_000


def run(*words):
    done = subprocess.run(words, capture_output=True, check=False)
    return done.returncode, done.stdout, done.stderr


def chart_of(mscrun, file):
    """The chart that a file says or comes to, or nothing where it is refused."""
    data = pathlib.Path(file).read_bytes()
    kind = "replay" if data.startswith(b"instances") else "check"
    status, out, _ = run(mscrun, kind, file)
    if status not in (0, 1):
        return None
    text = out if kind == "replay" else data
    return read_chart(text.split(b"endmsc;\n")[0] + b"endmsc;\n")


def free_name(chart):
    taken = {event.message for line in chart.lines for event in line}
    name, number = b"ack", 2
    while name in taken:
        name, number = b"ack_%d" % number, number + 1
    return name


def ranges_of(numbers):
    ranges = []
    for number in numbers:
        if ranges and ranges[-1][1] + 1 == number:
            ranges[-1][1] = number
        else:
            ranges.append([number, number])
    return ranges


def event_words(chart, line, number):
    event = line[number - 1]
    return b"%s (%d, %s %s)" % (event.message, number, b"from" if event.kind == "in" else b"to", chart.names[event.partner])


def range_words(chart, line, first, last):
    if first == last:
        return event_words(chart, line, first)
    between = b", " if last == first + 1 else b", .., "
    return b"events %d to %d (%s%s%s)" % (first, last, line[first - 1].message, between, line[last - 1].message)


def race_lines(chart, pairs, word):
    """The lines of these race pairs behind a word."""
    receives = {}
    for e, r in sorted(pairs, key=lambda pair: (pair[1], pair[0])):
        receives.setdefault(r, []).append(e[1] + 1)
    return b"".join(
        b"%s: %s: %s may come before %s\n"
        % (word, chart.names[p], event_words(chart, chart.lines[p], i + 1), range_words(chart, chart.lines[p], first, last))
        for (p, i), numbers in receives.items()
        for first, last in ranges_of(numbers)
    )


def message_words(chart, name, message):
    p, sent, q, received = message
    return b"%s from %s to %s: sent behind event %d, received behind event %d\n" % (
        name, chart.names[p], chart.names[q], sent, received,
    )


def change_lines(chart, races, name, message, verbose):
    """What is reported of a message: where it is, and which races go, stay and come."""
    new = with_message(chart, *message, name=name)
    news = race_pairs(new, events_before(new))
    there = {(moved(e, *message), moved(r, *message)): (e, r) for e, r in races}
    gone = {pair for place, pair in there.items() if place not in news}
    stay, come = {pair for pair in news if pair in there}, {pair for pair in news if pair not in there}
    place = message_words(chart, name, message)
    goes, comes = race_lines(chart, gone, b"goes"), race_lines(new, come, b"comes")
    if verbose:
        return place + goes + race_lines(new, stay, b"stays") + comes
    shown = (goes + comes).splitlines(keepends=True)[:SHOWN]
    return place + b"".join(shown) + b"race pairs: %d go, %d stay, %d come\n" % (len(gone), len(stay), len(come))


def wanted(chart, races, found, sends, e, r, verbose):
    """Of a race what is answered: the status, the output, and what is reported; with the word for it."""
    word, what = mended(chart, found, sends, e, r)
    if word == "message":
        name = free_name(chart)
        new = chart_text(with_message(chart, *what, name=name))
        return word, (0, new, change_lines(chart, races, name, what, verbose))
    way = b" comes behind the receive's send\n" if word == "crossed" else b" is on its way\n"
    ends = chart.names[e[0]], chart.names[sends[r][0]]
    reported = b"no message from %s to %s does: " % ends + event_words(chart, chart.lines[e[0]], what) + way
    return word, (1, b"", reported)


def words_of(chart, e, r):
    return chart.names[e[0]], b"%d" % (e[1] + 1), b"%d" % (r[1] + 1)


def fault_of_race(programs, file, chart, races, found, sends, pair, seen):
    """What is wrong with the answer of a race, or nothing."""
    mscrun, mscview, room = programs
    e, r = pair
    for options in ([], ["--verbose"]):
        word, answer = wanted(chart, races, found, sends, e, r, bool(options))
        if run(mscview, "mend", *options, file, *words_of(chart, e, r)) != answer:
            return f"the answer {options}"
    seen[word] += 1
    if word == "message":
        new = room / "mended"
        new.write_bytes(answer[1])
        status, _, stated = run(mscrun, "check", str(new))
        if status not in (0, 1) or stated:
            return "check refuses it"
        if not is_mended(chart, races, mended(chart, found, sends, e, r)[1], e, r):
            return "the chart"
    elif sum(map(len, chart.lines)) <= FEW:
        seen["searched"] += 1
        if searched(chart, e, r, sends) is not None:
            return "there is a message"
    return ""


def fault_of_other(mscview, file, chart, found, e, r):
    """What is wrong with the answer of a pair that is no race, or nothing."""
    words = words_of(chart, e, r)
    answer = run(mscview, "mend", file, *words)
    if is_before(found, e, r):
        return "" if answer == (0, b"", run(mscview, "why", file, *words)[1]) else "an enforced pair"
    return "" if answer == (0, b"", b"a coregion hides this pair\n") else "a hidden pair"


def shown_pairs(chart, found, receives):
    """The race pairs, or only those whose earlier event is a receive."""
    races = race_pairs(chart, found)
    return {(e, r) for e, r in races if not receives or chart.lines[e[0]][e[1]].kind == "in"}


def best(chart, receives):
    """The race pair whose mending leaves the fewest, if they are fewer, with its message and the new chart."""
    found, sends = events_before(chart), sends_of_receives(chart)
    races = shown_pairs(chart, found, receives)
    least, chosen = len(races), None
    for e, r in sorted(races, key=lambda pair: (pair[1], pair[0])):
        word, what = mended(chart, found, sends, e, r)
        if word == "message":
            new = with_message(chart, *what, name=free_name(chart))
            left = len(shown_pairs(new, events_before(new), receives))
            if left < least:
                least, chosen = left, (e, r, what, new)
    return chosen, len(races)


def all_mended(chart, limit=None, receives=False):
    """What `mend --all` answers with such a limit, how many messages it adds, and how many pairs it tries."""
    if limit is None:
        all_pairs = race_pairs(chart, events_before(chart))
        limit = TRIED_IN_ALL // (sum(map(len, chart.lines)) + len(all_pairs) + 1)
    reported, added, tried = b"", 0, 0
    while True:
        chosen, left = best(chart, receives)
        if left > limit - tried:
            reported += b"stopped after %d: %d races are left\n" % (tried, left)
            return (1, chart_text(chart), reported), added, tried
        tried += left
        if chosen is None:
            return (int(left > 0), chart_text(chart), reported), added, tried
        e, r, what, new = chosen
        reported += b"race %s %s %s: " % words_of(chart, e, r) + message_words(chart, free_name(chart), what)
        chart, added = new, added + 1


def try_file(programs, name, file, seen):
    """Tries all pairs of a file's chart, and answers what is wrong, or nothing."""
    mscrun, mscview, _ = programs
    chart = chart_of(mscrun, file)
    if chart is None:
        return ""
    found, sends = events_before(chart), sends_of_receives(chart)
    races = race_pairs(chart, found)
    seen["charts"] += 1
    for pair in sorted(races, key=lambda pair: (pair[1], pair[0])):
        fault = fault_of_race(programs, file, chart, races, found, sends, pair, seen)
        if fault:
            return f"{fault} of {words_of(chart, *pair)}"
    for p, line in enumerate(chart.lines):
        receives = [i for i, event in enumerate(line) if event.kind == "in" and i > 0]
        for i in receives[:4]:
            others = [j for j in range(i) if ((p, j), (p, i)) not in races]
            for j in others[:3]:
                seen["other pairs"] += 1
                fault = fault_of_other(mscview, file, chart, found, (p, j), (p, i))
                if fault:
                    return f"{fault} of {words_of(chart, (p, j), (p, i))}"
    if len(races) <= FEW_PAIRS:
        answer, added, tried = all_mended(chart)
        seen["mended whole"] += answer[0] == 0
        seen["races left"] += answer[0] == 1
        seen["most messages"] = max(seen["most messages"], added)
        if run(mscview, "mend", "--all", file) != answer:
            return "mend --all"
        if run(mscview, "mend", "--all", "--receives", file) != all_mended(chart, receives=True)[0]:
            return "mend --all --receives"
        for limit in {0, tried // 2, max(tried - 1, 0), tried}:
            if run(mscview, "mend", "--all", "--limit", str(limit), file) != all_mended(chart, limit)[0]:
                return f"mend --all --limit {limit}"
    return ""


def drawn_schedule(draw):
    names = [f"p{number}" for number in range(draw.randint(2, 5))]
    commands = []
    for _ in range(draw.randint(4, 40)):
        actor, partner = draw.sample(names, 2)
        commands.append(f"{actor} send {partner} m{draw.randint(0, 3)}" if draw.random() < 0.5 else f"{actor} any")
        if draw.random() < 0.15:
            commands += [f"{actor} concurrent", f"{actor} any", f"{actor} any", f"{actor} endconcurrent"]
    return "\n".join([f"instances {' '.join(names)}", f"capacity {draw.choice([1, 2, 4, 64])}", *commands]) + "\n"


def main(mscrun, mscview, count, first):
    seen = Counter()
    failed = 0
    with tempfile.TemporaryDirectory() as folder:
        room = pathlib.Path(folder)
        programs = mscrun, mscview, room
        # (the plain closure of full lines takes minutes)
        subprocess.run(["tools/lib/read_cases", folder], check=True)
        files = sorted(path for path in room.glob("cases/*/*/*/input") if path.stat().st_size < 60_000)
        examples = sorted(path for path in pathlib.Path("examples").glob("*/*") if path.suffix in (".schedule", ".msc"))
        files += [path for path in examples if path.with_suffix(".stdout").exists()]
        for seed in range(first, first + count):
            schedule = room / f"drawn_{seed}"
            schedule.write_text(drawn_schedule(random.Random(seed)))
            files.append(schedule)
        for file in files:
            fault = try_file(programs, file.name, str(file), seen)
            if fault:
                failed += 1
                print(f"FAILED {str(file).replace(folder + '/', '')}: {fault}", flush=True)
    for what, number in sorted(seen.items()):
        print(f"{what}: {number}")
    print(f"{seen['charts'] - failed} charts are mended as they should be, {failed} otherwise")
    return failed > 0


if __name__ == "__main__":
    sys.exit(main(sys.argv[1], sys.argv[2], int(sys.argv[3]), int(sys.argv[4])))

"""
Compares what `mscview why` explains of drawn schedules with a plain search.

`judge_explanations.py PROGRAM COUNT SEED`: each schedule has another seed, from SEED on. Of each of its receives some
earlier events of the line are asked about.
"""

import os
import sys
import tempfile
from collections import Counter, deque
from random import Random

from charts import sends_of_receives
from judge_threads import run
from made_schedules import made_schedule
from replays import not_done_text, outcome
from schedule_texts import schedule_text

SEND_RULE = b"earlier event of a line, before a send"


def rules_before(chart, sends, later):
    """Each event that stands directly before this one, with its rule."""
    p, i = later
    event = chart.lines[p][i]
    if event.kind == "out":
        return {(p, j): SEND_RULE for j in range(i)}
    found = {sends[later]: b"message"}
    for j in range(i):
        other = chart.lines[p][j]
        if other.kind == "in" and other.partner == event.partner:
            found[p, j] = b"same sender"
    return found


def steps_to(chart, sends, receive):
    """For each event before the receive, and for itself, the fewest direct steps to it."""
    steps = {receive: 0}
    found = deque([receive])
    while found:
        later = found.popleft()
        for earlier in rules_before(chart, sends, later):
            if earlier not in steps:
                steps[earlier] = steps[later] + 1
                found.append(earlier)
    return steps


def is_chain(chart, sends, lines, earlier, receive):
    """Whether the lines are direct steps from one event to the other, each with its rule."""
    at = earlier
    for line in lines:
        step, rule = line.split(b": ", 1)
        words = step.split()
        first, second = ((chart.names.index(name), int(number) - 1) for name, number in (words[0:2], words[3:5]))
        if words[2] != b"before" or first != at or rules_before(chart, sends, second).get(first) != rule:
            return False
        at = second
    return at == receive


def half(chart, p, i):
    event = chart.lines[p][i]
    side = b"to" if event.kind == "out" else b"from"
    return b"%d %s %s %s %s" % (i + 1, event.kind.encode(), event.message, side, chart.names[event.partner])


def race_lines(chart, before, receive):
    """The lines that explain a race of this receive."""
    p, r = receive
    lines = []
    firsts = []
    for q, line in enumerate(chart.lines):
        sends = [i for i, event in enumerate(line) if event.kind == "out" and (q, i) in before]
        firsts.append(max(sends, default=-1) + 1)
        lines.append(b"before %s %d" % (chart.names[q], firsts[q]))
    own = [i for i in range(r) if (p, i) in before]
    lines += [b"and %s %d" % (chart.names[p], i + 1) for i in own if i >= firsts[p]]
    order = own + [r] + [i for i in range(len(chart.lines[p])) if i != r and i not in own]
    return lines + [b"line %s | %s" % (half(chart, p, i), half(chart, p, j)) for i, j in enumerate(order)]


def judge(program, file, chart, reported, draw, seen):
    """The first pair that is explained otherwise, or None. Of each it is reported which commands did nothing."""
    sends = sends_of_receives(chart)
    for receive in sends:
        p, r = receive
        steps = steps_to(chart, sends, receive)
        before = set(steps) - {receive}
        for e in draw.sample(range(r), min(r, 4)):
            status, out, stated = run(program, "why", file, chart.names[p].decode(), str(e + 1), str(r + 1))
            lines = out.splitlines()
            if (p, e) in before:
                seen["enforced"] += 1
                right = status == 0 and stated == reported and len(lines) == steps[p, e]
                right = right and is_chain(chart, sends, lines, (p, e), receive)
            else:
                coregions = {chart.lines[p][i].coregion for i in (e, r)}
                hidden = len(coregions) == 1 and coregions != {0}
                seen["hidden" if hidden else "races"] += 1
                right = status == 1 and stated == (b"a coregion hides this pair\n" if hidden else b"") + reported
                right = right and lines == race_lines(chart, before, receive)
            if not right:
                return chart.names[p], e + 1, r + 1, status, out, stated
    return None


def main(program, count, first):
    seen = Counter()
    failed = 0
    with tempfile.TemporaryDirectory() as folder:
        file = os.path.join(folder, "schedule")
        for seed in range(first, first + count):
            schedule = made_schedule(seed)
            with open(file, "wb") as written:
                written.write(schedule_text(schedule))
            chart, notes = outcome(schedule)
            difference = judge(program, file, chart, not_done_text(notes), Random(seed), seen)
            if difference:
                failed += 1
                print(f"FAILED seed {seed}:", *difference, flush=True)
    for what, number in sorted(seen.items()):
        print(f"{what}: {number}")
    print(f"{count - failed} schedules were explained as by the model, {failed} otherwise")
    return failed > 0


if __name__ == "__main__":
    sys.exit(main(sys.argv[1], int(sys.argv[2]), int(sys.argv[3])))

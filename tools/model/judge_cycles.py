"""
Compares the cycle that `mscview explain` reports of drawn charts with a plain search.

`judge_cycles.py PROGRAM COUNT SEED`: each chart has another seed, from SEED on. What is reported has to be a cycle of
direct steps, each with its rule and its line, from its least event on, with as few steps as a search from each event
over all direct pairs finds.
"""

import os
import sys
import tempfile
from collections import Counter

from chart_texts import chart_text
from charts import sends_of_receives
from drawn_cycles import cyclic_chart, rule_of, shortest_way_around
from judge_threads import run

HEAD = b"a chart, for mscrun check, and for mscview\n\nerror: F18 Cyclic: events come before each other, in a cycle\n"


def lines_of_events(text):
    """The number of the line at which each event stands."""
    found = {}
    p = i = -1
    for number, line in enumerate(text.splitlines(), 1):
        word = line.split()[0]
        if word == b"instance":
            p, i = p + 1, -1
        elif word in (b"in", b"out"):
            i += 1
            found[p, i] = number
    return found


def steps_stated(chart, reported):
    """Each step that is reported: the line, the two events and the rule."""
    steps = []
    for line in reported.splitlines():
        where, step, rule = line.split(b": ", 2)
        words = step.split()
        first, second = ((chart.names.index(name), int(number) - 1) for name, number in (words[0:2], words[3:5]))
        if words[2] != b"before" or not where.startswith(b"  = line "):
            raise ValueError(line)
        steps.append((int(where[9:]), first, second, rule))
    return steps


def what_differs(chart, text, out):
    """What is wrong with what is reported, or None; and how many steps there are."""
    sends = sends_of_receives(chart)
    if not out.startswith(HEAD):
        return "head", 0
    steps = steps_stated(chart, out[len(HEAD) :])
    numbers = lines_of_events(text)
    for place, (number, earlier, later, rule) in enumerate(steps):
        if rule_of(chart, sends, earlier, later) != rule or numbers[earlier] != number:
            return "step", len(steps)
        if steps[(place + 1) % len(steps)][1] != later:
            return "next step", len(steps)
    if not steps or steps[0][1] != min(step[1] for step in steps):
        return "first event", len(steps)
    return (None if len(steps) == shortest_way_around(chart, sends) else "length"), len(steps)


def main(program, count, first):
    lengths = Counter()
    failed = 0
    with tempfile.TemporaryDirectory() as folder:
        file = os.path.join(folder, "chart")
        for seed in range(first, first + count):
            chart = cyclic_chart(seed)
            text = chart_text(chart)
            with open(file, "wb") as written:
                written.write(text)
            status, out, stated = run(program, "explain", file)
            differs, length = what_differs(chart, text, out)
            lengths[length] += 1
            if differs or status != 1 or stated:
                failed += 1
                print(f"FAILED seed {seed}: {differs}", status, out, stated, flush=True)
    for length, number in sorted(lengths.items()):
        print(f"{length} steps: {number}")
    print(f"{count - failed} charts have the cycle reported that the model wants, {failed} another")
    return failed > 0


if __name__ == "__main__":
    sys.exit(main(sys.argv[1], int(sys.argv[2]), int(sys.argv[3])))

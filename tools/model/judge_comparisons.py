"""
Compares what `mscview compare` reports of two runs with the plain model's comparison.

`judge_comparisons.py MSCRUN MSCVIEW COUNT SEED`: each pair of runs is of another schedule, made from a seed from SEED on. It
is drawn twice, and then run on threads twice. Every other pair has the instances of its second run in another order.
"""

import os
import subprocess
import sys
import tempfile
from collections import Counter

from chart_texts import Chart, chart_text, read_chart
from compared_charts import comparison, differences
from judge_replays import chart_part
from made_schedules import made_schedule
from replays import answer, random
from schedule_texts import read_schedule, schedule_text

# A run that has spent its turns has a chart too.
TURNS = "100000"


def reordered(chart):
    """The same chart with its instances the other way round."""
    last = len(chart.names) - 1
    lines = [[event._replace(partner=last - event.partner) for event in line] for line in chart.lines]
    return Chart(chart.names[::-1], lines[::-1])


def drawn_runs(text, seed):
    """What two runs of a schedule print whose orders are drawn."""
    return [answer(read_schedule, text, random, 2 * seed + run)[1] for run in (0, 1)]


def threaded_runs(mscrun, folder, text):
    """What two runs of a schedule on threads print."""
    file = os.path.join(folder, "schedule")
    with open(file, "wb") as written:
        written.write(text)
    words = [mscrun, "threads", file, "--turns", TURNS]
    return [subprocess.run(words, capture_output=True, check=False).stdout for _ in (0, 1)]


def charts_of(outputs, seed):
    """Their charts."""
    a, b = (read_chart(chart_part(output)) for output in outputs)
    return a, reordered(b) if seed % 2 else b


def differs(program, folder, a, b, is_json):
    """What the program answers and what the model does, where these differ."""
    files = [os.path.join(folder, name) for name in ("a", "b")]
    for file, chart in zip(files, (a, b)):
        with open(file, "wb") as written:
            written.write(chart_text(chart))
    words = [program, "compare"] + (["--json"] if is_json else []) + files
    done = subprocess.run(words, capture_output=True, check=False)
    answered, wanted = (done.returncode, done.stdout), comparison(a, b, is_json)
    return None if answered == wanted and not done.stderr else (answered, wanted, done.stderr)


def count_pairs(seen, how, a, b):
    """Counts in how many pairs of runs some two events stand the other way round, and with which verdicts."""
    pairs = differences(a, b)
    seen[f"{how}, {'with' if pairs else 'without'} pairs"] += 1
    seen.update(f"{how}, {pair[5]} and {pair[6]}" for pair in pairs)


def main(mscrun, mscview, count, first):
    seen = Counter()
    failed = 0
    with tempfile.TemporaryDirectory() as folder:
        for seed in range(first, first + count):
            text = schedule_text(made_schedule(seed))
            for how, outputs in (("drawn", drawn_runs(text, seed)), ("on threads", threaded_runs(mscrun, folder, text))):
                a, b = charts_of(outputs, seed)
                for is_json in (False, True):
                    found = differs(mscview, folder, a, b, is_json)
                    if found:
                        failed += 1
                        print(f"FAILED seed {seed}, {how}:", *found, flush=True)
                count_pairs(seen, how, a, b)
    for what, number in sorted(seen.items()):
        print(number, what)
    print(f"{count} pairs of drawn runs and {count} of runs on threads, {failed} failed")
    return 1 if failed else 0


if __name__ == "__main__":
    sys.exit(main(sys.argv[1], sys.argv[2], int(sys.argv[3]), int(sys.argv[4])))

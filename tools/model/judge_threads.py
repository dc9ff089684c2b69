"""
Judges threaded runs of schedules that are made from seeds: `judge_threads.py PROGRAM RUNS SEED`.

Each run has another seed, from SEED on. Its output is judged by `thread_runs`, and its race lines are compared with
what the program's `check` says of its chart. Of each run that can't be, seed, schedule and output are printed.
"""

import os
import subprocess
import sys
import tempfile
from collections import Counter

from chart_texts import chart_text
from charts import race_text
from made_schedules import Draw, made_schedule
from schedule_texts import schedule_text
from thread_runs import Impossible, judge, require

SECONDS = 600
TURNS = [1, 20, 1000, 100000, 1000000]


def turns_of(seed):
    return Draw(seed + 2**32).one_of(TURNS)


def run(program, *words):
    words = [program, *words]
    ended = subprocess.run(words, stdin=subprocess.DEVNULL, capture_output=True, timeout=SECONDS, check=False)
    return ended.returncode, ended.stdout, ended.stderr


def is_checked(program, folder, chart, found):
    """The program's own search finds the same races in the chart."""
    file = os.path.join(folder, "chart")
    with open(file, "wb") as text:
        text.write(chart_text(chart))
    answer = run(program, "check", file)
    require(answer == (int(bool(found)), race_text(found), b""), "check answers", repr(answer))


def judge_seed(program, folder, seed, seen):
    """Runs and judges one, and counts what was seen."""
    schedule, turns = made_schedule(seed), turns_of(seed)
    file = os.path.join(folder, "schedule")
    with open(file, "wb") as text:
        text.write(schedule_text(schedule))
    output = b""
    try:
        status, output, stated = run(program, "threads", file, "--turns", str(turns))
        require(not stated, "it says", stated)
        chart, found, notes, spent = judge(schedule, turns, status, output)
        is_checked(program, folder, chart, found)
    except (Impossible, subprocess.TimeoutExpired) as fault:
        print(f"FAILED seed {seed}, {turns} turns: {fault}")
        print(schedule_text(schedule).decode() + output.decode(errors="replace"), flush=True)
        return False
    count(seen, schedule, chart, found, notes, spent)
    return True


def count(seen, schedule, chart, found, notes, spent):
    seen["events"] += sum(len(line) for line in chart.lines)
    seen["race lines"] += len(found)
    seen["runs with races"] += bool(found)
    seen["runs in which all instances stopped"] += not spent
    seen["spent instances"] += len(spent)
    seen["instances"] += len(schedule.names)
    for _, word in notes:
        seen[f"notes '{word}'"] += 1


def main(program, runs, first):
    seen = Counter()
    failed = 0
    with tempfile.TemporaryDirectory() as folder:
        for seed in range(first, first + runs):
            failed += not judge_seed(program, folder, seed, seen)
    for what, number in sorted(seen.items()):
        print(f"{what}: {number}")
    print(f"{runs - failed} runs may be, {failed} can't")
    return int(failed > 0)


if __name__ == "__main__":
    sys.exit(main(sys.argv[1], int(sys.argv[2]), int(sys.argv[3])))

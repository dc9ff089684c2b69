"""
Compares a program's answers to schedules that are made from seeds with the plain model's.

`judge_replays.py PROGRAM COUNT SEED`: each schedule has another seed, from SEED on, by which `random` draws too;
`check` gets the charts of both.
"""

import os
import sys
import tempfile
from collections import Counter

from chart_texts import read_chart
from judge_threads import run
from made_schedules import made_schedule
from replays import answer, check, random, replay
from schedule_texts import read_schedule, schedule_text


def answers(program, folder, read, text, does, *words):
    """What the program answers, and what the model does."""
    file = os.path.join(folder, "text")
    with open(file, "wb") as written:
        written.write(text)
    flags = ["--seed", str(words[0])] if words else []
    return run(program, does.__name__, file, *flags), answer(read, text, does, *words)


def chart_part(output):
    """The text of the chart, with which an output begins."""
    end = b"endmsc;\n"
    return output[: output.index(end) + len(end)]


def differs(program, folder, seed, seen):
    """The first command whose answers differ, or None."""
    text = schedule_text(made_schedule(seed))
    for does, words in ((replay, []), (random, [seed])):
        answered, wanted = answers(program, folder, read_schedule, text, does, *words)
        if answered != wanted:
            return does.__name__, text, answered, wanted
        seen[f"{does.__name__} with races" if answered[0] else f"{does.__name__} without races"] += 1
        seen["notes"] += answered[1].count(b"\nnote ")
        chart = chart_part(answered[1])
        answered, wanted = answers(program, folder, read_chart, chart, check)
        if answered != wanted:
            return "check", chart, answered, wanted
    return None


def main(program, count, first):
    seen = Counter()
    failed = 0
    with tempfile.TemporaryDirectory() as folder:
        for seed in range(first, first + count):
            difference = differs(program, folder, seed, seen)
            if difference:
                failed += 1
                print(f"FAILED seed {seed}:", *difference, flush=True)
    for what, number in sorted(seen.items()):
        print(f"{what}: {number}")
    print(f"{count - failed} schedules are answered as by the model, {failed} aren't")
    return int(failed > 0)


if __name__ == "__main__":
    sys.exit(main(sys.argv[1], int(sys.argv[2]), int(sys.argv[3])))

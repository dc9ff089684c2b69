"""
Compares what the conditions say of each race of small drawn charts with a search over all places of one message.

`judge_mends.py COUNT SEED`: each schedule has another seed, from SEED on. A schedule's first commands alone are taken.
"""

import sys
from collections import Counter

from charts import events_before, sends_of_receives
from made_schedules import made_schedule
from mended_charts import is_mended, mended, race_pairs, searched
from replays import outcome

FEW = 18


def judge(chart, seen):
    """The first race for which the two differ, or nothing."""
    found, sends = events_before(chart), sends_of_receives(chart)
    races = race_pairs(chart, found)
    for e, r in sorted(races):
        word, what = mended(chart, found, sends, e, r)
        seen[word] += 1
        if word == "message":
            right = is_mended(chart, races, what, e, r)
        else:
            right = searched(chart, e, r, sends) is None
        if not right:
            return e, r, word, what
    return None


def main(count, first):
    seen = Counter()
    failed = 0
    for seed in range(first, first + count):
        schedule = made_schedule(seed)
        chart = outcome(schedule._replace(commands=schedule.commands[:FEW]))[0]
        difference = judge(chart, seen)
        if difference:
            failed += 1
            print(f"FAILED seed {seed}:", *difference, flush=True)
    for what, number in sorted(seen.items()):
        print(f"{what}: {number}")
    print(f"{count - failed} charts are mended as by the search, {failed} otherwise")
    return failed > 0


if __name__ == "__main__":
    sys.exit(main(int(sys.argv[1]), int(sys.argv[2])))

"""Times mscrun's replay, and random with a seed, as whole processes: microseconds a command and page faults a message. Of
each two instances the first sends 4,096 messages to the second, 64 at a time, so a message takes two commands. With another
mscrun both take turns, and the ratios of each turn's times are reported by their median.

    whole_replays.py FOLDER MSCRUN [OTHER]   the schedules are in FOLDER, called by how many instances they have
"""

import os
import sys

from timing import ratio, timed_in_turn

TASKS = {"replay": (), "random": ("--seed", "1")}


def commands_in(schedule):
    """How many commands a schedule has: all lines but the first two."""
    with open(schedule, "rb") as text:
        return sum(1 for _ in text) - 2


def main(folder, mscrun, *others):
    programs = {"mscrun": mscrun}
    if others:
        programs["other mscrun"] = others[0]
    for instances in ("2", "8", "32"):
        schedule = os.path.join(folder, instances)
        commands = commands_in(schedule)
        print(f"{instances} instances, {commands} commands:")
        for task, words in TASKS.items():
            seen = timed_in_turn({name: (path, task, schedule, *words) for name, path in programs.items()})
            for name, its in seen.items():
                took = its.seconds / commands * 1e6
                print(f"  {task} by {name}: {took:.2f} microseconds a command, {its.faults / (commands / 2):.3f} page faults a message")
            if others:
                print(f"  {task} to other mscrun: {ratio(seen['mscrun'], seen['other mscrun']):.2f}")


main(*sys.argv[1:])

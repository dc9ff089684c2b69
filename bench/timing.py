"""How programs are timed by the scripts beside this one: by the median of five runs, with what they write thrown away."""

import os
import statistics
import subprocess
import time

REPETITIONS = 5


class Run:
    """One run of a program: its seconds, its peak megabytes, its page faults and its status."""

    def __init__(self, words):
        began = time.monotonic()
        with open(os.devnull, "wb") as nowhere:
            child = subprocess.Popen(words, stdout=nowhere, stderr=nowhere)
            _, status, usage = os.wait4(child.pid, 0)
        self.seconds = time.monotonic() - began
        self.megabytes = usage.ru_maxrss / 1000
        self.faults = usage.ru_minflt
        self.status = os.waitstatus_to_exitcode(status)


class Timed:
    """Runs of a program: the median of their seconds and of their page faults, the greatest peak, and the last one's status."""

    def __init__(self, runs):
        self.runs = runs
        self.seconds = statistics.median(run.seconds for run in runs)
        self.megabytes = max(run.megabytes for run in runs)
        self.faults = statistics.median(run.faults for run in runs)
        self.status = runs[-1].status


def timed(*words):
    """A program that is run again and again."""
    return Timed([Run(words) for _ in range(REPETITIONS)])


def timed_in_turn(words_of):
    """Several programs, by name, that take turns."""
    runs = {name: [] for name in words_of}
    for _ in range(REPETITIONS):
        for name, words in words_of.items():
            runs[name].append(Run(words))
    return {name: Timed(seen) for name, seen in runs.items()}


def ratio(one, other):
    """The median of the ratios of two programs' times, turn by turn."""
    return statistics.median(mine.seconds / its.seconds for mine, its in zip(one.runs, other.runs))


def timed_beside(program, other, *words):
    """A program that is run again and again with these words, and what to report of another one, if it is named: then
    both take turns."""
    if other is None:
        return timed(program, *words), ""
    seen = timed_in_turn({"this": [program, *words], "other": [other, *words]})
    return seen["this"], f", relative to the other program {ratio(seen['this'], seen['other']):.2f}"

"""Times mscrun's check and mscview's draw of three charts of 32 lines with 4,096 events each, and reports their peak memory:
a token that is passed round, mixed traffic, and bursts of 64 messages, which bench_library makes. A check that is written by
hand in C (bench/peers/check.c) takes its turns with them, where there is a C compiler: both have to write the same races.
With the path of another mscrun its check does so too. The ratios of each turn's times are reported by their median.

    check_patterns.py FOLDER [MSCRUN]   by the programs that are built in FOLDER
"""

import hashlib
import os
import shutil
import subprocess
import sys
import tempfile

from timing import ratio, timed_in_turn

HERE = os.path.dirname(os.path.abspath(__file__))


def by_hand(room):
    """The check that is written by hand in C, compiled into a folder, or None where there is no compiler."""
    compiler = shutil.which("cc")
    if compiler is None:
        print("there is no C compiler, so the check by hand is left out")
        return None
    program = os.path.join(room, "check_by_hand")
    source = os.path.join(HERE, "peers", "check.c")
    subprocess.run([compiler, "-O2", "-std=c11", "-o", program, source], check=True)
    return program


def sum_of_races(*words):
    """A sum of what a program writes."""
    return hashlib.sha256(subprocess.run(words, stdout=subprocess.PIPE, check=False).stdout).hexdigest()


def main(folder, *others):
    commands = {"check": (os.path.join(folder, "mscrun"), "check"), "draw": (os.path.join(folder, "mscview"), "draw")}
    if others:
        commands["other check"] = (others[0], "check")
    maker = os.path.join(folder, "bench_library")
    with tempfile.TemporaryDirectory() as room:
        program = by_hand(room)
        if program:
            commands["check by hand"] = (program,)
        chart = os.path.join(room, "chart")
        for traffic in ("token", "mixed", "bursts"):
            with open(chart, "wb") as text:
                subprocess.run([maker, "make", traffic], stdout=text, check=True)
            print(f"{traffic}, {os.path.getsize(chart) / 1e6:.1f} MB of text:")
            if program and sum_of_races(*commands["check"], chart) != sum_of_races(program, chart):
                sys.exit(f"{traffic}: the check by hand writes other races")
            seen = timed_in_turn({name: (*words, chart) for name, words in commands.items()})
            for name, its in seen.items():
                print(f"  {name}: {its.seconds:.3f} s, at most {its.megabytes:.0f} MB")
            for other in ("check by hand", "other check"):
                if other in seen:
                    print(f"  check to {other}: {ratio(seen['check'], seen[other]):.2f}")


main(*sys.argv[1:])

"""
Compares what the program answers to broken texts with what the plain model does.

`judge_broken_texts.py BREAKER COUNT SEED FILE..`: the program `fuzz_texts` breaks the texts of the files so many times,
and reports each broken text with its answer. What it prints at the end is compared too, and printed again, so that it may be
compared with what it prints where it reports no text.
"""

import hashlib
import re
import subprocess
import sys
from collections import Counter

from chart_texts import read_chart
from replays import answer, check, replay
from schedule_texts import read_schedule

READS = {b"check": (read_chart, check), b"replay": (read_schedule, replay)}
REFUSED = re.compile(rb"refused: F([0-9]+) ")


class Records:
    """The records of a stream: a line `WORD STATUS LENGTH LENGTH LENGTH`, the text, what was written and what was stated."""

    def __init__(self, stream):
        self.stream = stream
        self.digest = hashlib.sha256()

    def take(self, taken):
        self.digest.update(taken)
        return taken

    def record(self):
        head = self.take(self.stream.readline())
        word, status, *lengths = head.split()
        text, written, stated = (self.take(self.stream.read(int(length))) for length in lengths)
        return word, text, (int(status), written, stated)


def summary(seen, digest):
    lines = [f"read {seen[0]}"] + [f"F{number} {count}" for number, count in sorted(seen.items()) if number]
    return "".join(line + "\n" for line in lines + [f"sha256 {digest}"])


def judge(stream, count):
    """Judges so many records and the summary: how many failed."""
    records, seen, failed = Records(stream), Counter({0: 0}), 0
    for _ in range(count):
        word, text, answered = records.record()
        read, does = READS[word]
        wanted = answer(read, text, does)
        if answered != wanted:
            failed += 1
            print("FAILED", word.decode(), text, answered, wanted, flush=True)
        refusal = REFUSED.match(wanted[2])
        seen[int(refusal[1]) if refusal else 0] += 1
    printed = stream.read().decode()
    if printed != summary(seen, records.digest.hexdigest()):
        failed += 1
        print("FAILED: at the end it prints", printed, flush=True)
    print(printed, end="")
    return failed


def main(breaker, count, seed, *files):
    with subprocess.Popen([breaker, "report", count, seed, *files], stdout=subprocess.PIPE) as ran:
        failed = judge(ran.stdout, int(count))
    print(f"{count} broken texts, {failed} answered otherwise than by the model", file=sys.stderr)
    return int(failed > 0 or ran.returncode != 0)


if __name__ == "__main__":
    sys.exit(main(*sys.argv[1:]))

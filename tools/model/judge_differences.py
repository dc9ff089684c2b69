"""
Compares recordings of one program: where two differ on a line, the first receive that differs is to be luck in both.

`judge_differences.py HOST FOLDER..`: the line of this host, and the logs of each run in a folder of its own.
"""

import sys
from collections import Counter
from itertools import combinations
from pathlib import Path

from log_charts import LogChart, chart_of_log
from logs import read_logs
from luck import words_of_races

# A receive by its lane and what names the message there.
Received = tuple[tuple[str, str], object]


class Run:
    """A recording: its words, and on the host's line the place of each message that is received."""

    def __init__(self, folder: str, host: str):
        made: LogChart = chart_of_log(read_logs(sorted(map(str, Path(folder).glob("*.log")))))
        self.words = words_of_races(made)
        self.line = made.hosts.index(host)
        items = enumerate(made.lines[self.line])
        self.receives: list[tuple[int, Received]] = [
            (place, (message.lane, message.receive.key)) for place, (kind, message) in items if kind == "in"
        ]

    def word(self, turn: int, other: Received) -> str:
        """The word for this message before the one that was received in that turn."""
        place = next((place for place, received in self.receives[turn:] if received == other), None)
        return self.words.get((self.line, self.receives[turn][0], place), "no race")


def main(host: str, folders: list[str]) -> int:
    runs = [Run(folder, host) for folder in folders]
    alike = 0
    tally: Counter = Counter()
    for one, other in combinations(runs, 2):
        pairs = zip(one.receives, other.receives)
        turn = next((turn for turn, (a, b) in enumerate(pairs) if a[1] != b[1]), None)
        if turn is None:
            alike += 1
        else:
            words = (one.word(turn, other.receives[turn][1]), other.word(turn, one.receives[turn][1]))
            tally[" and ".join(sorted(words))] += 1
    print(f"{len(runs)} runs: {alike} pairs alike")
    for words, count in tally.most_common():
        print(f"{count} pairs whose first difference is {words}")
    return 0


if __name__ == "__main__":
    sys.exit(main(sys.argv[1], sys.argv[2:]))

"""Times `mscview mend` of one race of a chart of nearly 131,072 events, and `mscview mend --all` of a chart of 8 instances
with 200 events each and about 100 ranges of races. Then it times both for a server with a full line, and its two
clients. Each time is the median of five runs, with what is written thrown away. With the path of another mscview both
take turns, and the ratios of each turn's times are reported by their median.

In the first chart a token is passed round 32 instances until each line has 4,000 events, and then each of two instances
sends to a third: its second receive has the first as a race. In the second one a token is passed on at random, and
another one made now and then. In the third one the clients send to the server in turn: it has four million races."""

import os
import random
import subprocess
import sys
import tempfile

from timing import timed_beside


def chart_text(lines):
    """The text of a chart with these lines of events, each a word, a message, and the number of a partner."""
    text = ["msc run;"]
    for number, events in enumerate(lines):
        text.append(f"instance n{number};")
        for direction, message, partner in events:
            text.append(f"{direction} {message} {'to' if direction == 'out' else 'from'} n{partner};")
        text.append("endinstance;")
    return "\n".join([*text, "endmsc;"]) + "\n"


def passed(lines, sender, receiver, message):
    lines[sender].append(("out", message, receiver))
    lines[receiver].append(("in", message, sender))


def ring(instances, turns):
    """A token passed round, and a race of the first line in the end; with the numbers of the race's events."""
    lines = [[] for _ in range(instances)]
    for _ in range(turns):
        for sender in range(instances):
            passed(lines, sender, (sender + 1) % instances, "token")
    passed(lines, 5, 0, "first")
    passed(lines, 9, 0, "second")
    return chart_text(lines), len(lines[0]) - 1, len(lines[0])


def tokens(instances, events, switch):
    """Tokens that are passed on at random."""
    draw = random.Random(1)
    lines = [[] for _ in range(instances)]
    token = 0
    while True:
        free = [number for number in range(instances) if len(lines[number]) < events - 1]
        if len(free) < 2:
            return chart_text(lines)
        if token not in free or draw.random() < switch:
            token = draw.choice(free)
        receiver = draw.choice([number for number in free if number != token])
        passed(lines, token, receiver, f"m{draw.randint(0, 9)}")
        token = receiver


def server(turns):
    """Two clients that send to a server in turn."""
    lines = [[], [], []]
    for _ in range(turns):
        passed(lines, 1, 0, "ask")
        passed(lines, 2, 0, "ask")
    return chart_text(lines)


def lines_of(words, stream):
    """How many lines a program writes to standard output or to standard error."""
    return getattr(subprocess.run(words, capture_output=True, check=False), stream).count(b"\n")


def main(mscview, other=None):
    with tempfile.TemporaryDirectory() as folder:
        chart = os.path.join(folder, "chart")
        text, earlier, receive = ring(32, 2000)
        with open(chart, "w", encoding="ascii") as file:
            file.write(text)
        seen, beside = timed_beside(mscview, other, "mend", chart, "n0", str(earlier), str(receive))
        print(f"mend, {len(text) / 1e6:.1f} MB of text: {seen.seconds:.3f} s, status {seen.status}{beside}")
        with open(chart, "w", encoding="ascii") as file:
            file.write(tokens(8, 200, 0.1))
        ranges = lines_of([mscview, "races", chart], "stdout")
        messages = lines_of([mscview, "mend", "--all", chart], "stderr")
        seen, beside = timed_beside(mscview, other, "mend", "--all", chart)
        took = f"{seen.seconds:.3f} s, status {seen.status}"
        print(f"mend --all, {ranges} ranges: {took}, {messages} messages added{beside}")
        with open(chart, "w", encoding="ascii") as file:
            file.write(server(2047))
        seen, beside = timed_beside(mscview, other, "mend", chart, "n0", "1999", "2000")
        print(f"mend on a full line: {seen.seconds:.3f} s, status {seen.status}{beside}")
        seen, beside = timed_beside(mscview, other, "mend", "--all", chart)
        print(f"mend --all on a full line: {seen.seconds:.3f} s, status {seen.status}{beside}")


if __name__ == "__main__":
    main(*sys.argv[1:])

"""Times three commands of mscview with large files, and with files half as large, which take turns: each time is the
median of five runs, with what is written thrown away, and each ratio the median of those of the turns. Another mscview
takes turns too, with the larger files.

explain reads a schedule of two instances with 60,000 commands that do nothing: receives of what its last line sends.
compare reads two recordings of 32 instances with 4,096 events each. Each instance sends to two others and receives
from two, again and again, and each pair of its receives has the other order in the second recording.
races reads a log of ten servers with 4,096 events each, which have two clients each. Of the clients' sends the log has
one to each server, the last one: all that comes before is begun in the middle. The messages come in runs of 64."""

import os
import sys
import tempfile

from timing import ratio, timed_in_turn

NOTES = 60_000
INSTANCES = 32
EVENTS = 4_096
SERVERS = 10
RUN = 64


def schedule_of_notes(notes):
    """The text of a schedule with so many commands that do nothing."""
    return "instances a b\ncapacity 1\n" + "a receive b\n" * notes + "b send a late\n"


def recording(events, is_second):
    """The text of a chart of full lines: each instance receives two messages at a time, in one order or the other."""
    text = ["msc run;"]
    for number in range(INSTANCES):
        text.append(f"instance n{number};")
        for turn in range(events // 4):
            steps = [1 + turn % 15, 16 + turn % 15]
            text += [f"out m to n{(number + step) % INSTANCES};" for step in steps]
            if is_second:
                steps.reverse()
            text += [f"in m from n{(number - step) % INSTANCES};" for step in steps]
        text.append("endinstance;")
    return "\n".join([*text, "endmsc;"]) + "\n"


def log_begun_in_the_middle(events):
    """The text of a log of servers, which lacks all of their clients' sends but the last one."""
    lines = []
    for server in range(SERVERS):
        for number in range(events - 1):
            lines.append(f"server{server} recv client{2 * server + number // RUN % 2} ask\n")
        lines.append(f"client{2 * server} send server{server} last\nserver{server} recv client{2 * server} last\n")
    return "".join(lines)


def written(folder, **texts):
    """The paths of files with these texts."""
    paths = {}
    for name, text in texts.items():
        paths[name] = os.path.join(folder, name)
        with open(paths[name], "w", encoding="ascii") as file:
            file.write(text)
    return paths


def main(mscview, other=None):
    with tempfile.TemporaryDirectory() as folder:
        files = written(
            folder,
            notes=schedule_of_notes(NOTES),
            half_notes=schedule_of_notes(NOTES // 2),
            first=recording(EVENTS, False),
            second=recording(EVENTS, True),
            half_first=recording(EVENTS // 2, False),
            half_second=recording(EVENTS // 2, True),
            log=log_begun_in_the_middle(EVENTS),
            half_log=log_begun_in_the_middle(EVENTS // 2),
        )
        for what, words, names in (
            (f"explain, {NOTES} notes", ["explain"], ["notes"]),
            (f"compare, {INSTANCES} lines of {EVENTS} events", ["compare"], ["first", "second"]),
            (f"races --from log, {SERVERS} lines begun in the middle", ["races", "--from", "log"], ["log"]),
        ):
            whole = words + [files[name] for name in names]
            turns = {"this": [mscview, *whole], "half": [mscview, *words, *(files[f"half_{name}"] for name in names)]}
            if other:
                turns["other"] = [other, *whole]
            seen = timed_in_turn(turns)
            this = seen["this"]
            print(f"{what}: {this.seconds:.3f} s, {this.megabytes:.0f} MB, status {this.status}", end="")
            print(f", relative to half of it {ratio(this, seen['half']):.2f}", end="")
            print(f", to the other program {ratio(this, seen['other']):.2f}" if other else "")


if __name__ == "__main__":
    main(*sys.argv[1:])

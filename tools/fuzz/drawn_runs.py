"""What the commands beside it share: the programs that are run, what they answer, and schedules that are drawn."""

import pathlib
import subprocess

TOP = pathlib.Path(__file__).resolve().parents[2]
MSCRUN = "out/bin/mscrun"
MSCVIEW = "out/bin/mscview"


def run(*words):
    done = subprocess.run(words, capture_output=True, text=True, check=False)
    return done.returncode, done.stdout, done.stderr


def lines_of(text):
    """The lines of a chart's text: for each instance its events, as direction, message and partner."""
    lines, events = {}, None
    for line in text.splitlines():
        words = line.rstrip(";").split()
        if words[0] == "instance":
            events = lines.setdefault(words[1], [])
        elif words[0] in ("out", "in"):
            events.append((words[0], words[1], words[3]))
    return lines


def races_in(text):
    return [line.split()[1:] for line in text.splitlines() if line.startswith("race ")]


def not_done_in(text):
    """What `mscview` reports of the commands that did nothing, by the notes that a replay has printed."""
    lines = [line.split()[1] for line in text.splitlines() if line.startswith("note ")]
    if not lines:
        return ""
    if len(lines) == 1:
        return f"1 command of the schedule did nothing, in line {lines[0]}: the chart lacks it\n"
    return f"{len(lines)} commands of the schedule did nothing, the first in line {lines[0]}: the chart lacks them\n"


def example_files():
    """The charts and schedules of examples/ that say what they come to."""
    files = pathlib.Path("examples").glob("*/*")
    return sorted(path for path in files if path.suffix in (".schedule", ".msc") and path.with_suffix(".stdout").exists())


def chart_and_races(file):
    """What a schedule comes to, or a chart with its races; None where the file is refused."""
    kind = "replay" if pathlib.Path(file).read_bytes().startswith(b"instances") else "check"
    status, out, _ = run(MSCRUN, kind, file)
    if status not in (0, 1):
        return None
    return out if kind == "replay" else pathlib.Path(file).read_text() + out


def drawn_schedule(draw):
    names = [f"p{number}" for number in range(draw.randint(2, 5))]
    commands = []
    for _ in range(draw.randint(4, 60)):
        actor, partner = draw.sample(names, 2)
        commands.append(f"{actor} send {partner} m{draw.randint(0, 3)}" if draw.random() < 0.5 else f"{actor} any")
    return "\n".join([f"instances {' '.join(names)}", f"capacity {draw.choice([1, 2, 4, 64])}", *commands]) + "\n"

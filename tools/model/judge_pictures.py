"""
Looks at the pictures that `mscview draw` writes, and at those beside a witness.

`judge_pictures.py MSCRUN MSCVIEW COUNT SEED`: of all cases and examples that say a chart, and of so many drawn schedules,
each with another seed, from SEED on, as a schedule and as the chart that it comes to. Each picture has to be well-formed XML,
also with a title that tries to be something else, which then has to be text and nothing more. Where all arrows are level, no
text lies on another, and no later arrow crosses a label. Of the first race of each there is a picture beside its witness: it
has both pictures as they are alone, and each mark is round the event of its lane and turn. Prints 'held' or 'FAILED' for each
promise, and how much there was of what. Then come the margins of as many drawn diagrams (`judge_margins.py`).
"""

import pathlib
import random
import re
import subprocess
import sys
import tempfile
import xml.etree.ElementTree as trees
from collections import Counter

from judge_margins import look_at_margin
from made_schedules import made_schedule
from picture_labels import in_picture, is_level
from replays import not_done_text, outcome
from schedule_texts import read_schedule, schedule_text

SVG = "{http://www.w3.org/2000/svg}"
TITLES = [
    b"<script>alert(1)</script>", b"\"'><g id='x'/>", b"]]><!-- <![CDATA[ -->", b"&amp; &#60;b&#62; &lt;", b"<?xml version='1.0'?>",
    b"\x01\x02\x1f\x7f", "\u00e4\u202e".encode(), b"a\tb\rc\nd", b"%s %n {0} $HOME `id`",
]
ENTITIES = {38: "&", 60: "<", 62: ">", 34: '"', 39: "'"}


def run(*words):
    done = subprocess.run(words, capture_output=True, check=False)
    return done.returncode, done.stdout, done.stderr


def shown(title):
    """The title as a reader of XML has it: what is no printable ASCII character is `?`."""
    return "".join(ENTITIES.get(byte) or (chr(byte) if 32 <= byte <= 126 else "?") for byte in title)


class Judge:
    def __init__(self, mscrun, mscview, room):
        self.mscrun, self.mscview, self.room = mscrun, mscview, room
        self.counts = Counter()
        self.faults = {}

    def fails(self, promise, file, why):
        self.faults.setdefault(promise, []).append(f"{file}: {why}")

    def holds(self, promise, file, fact, why=""):
        self.faults.setdefault(promise, [])
        if not fact:
            self.fails(promise, file, why)

    def tree_of(self, file, picture):
        """The picture as XML, or nothing."""
        try:
            tree = trees.fromstring(picture)
        except trees.ParseError as fault:
            self.fails("pictures are well-formed XML", file, fault)
            return None
        self.holds("pictures are well-formed XML", file, True)
        self.counts["pictures"] += 1
        return tree

    def look_at_titles(self, file, tree, title):
        """A title is text: it adds no element, and is what was given."""
        status, picture, _ = run(self.mscview, "draw", "--title", title, file)
        other = self.tree_of(file, picture)
        if other is None:
            return
        self.counts["titles"] += 1
        same = [element.tag for element in other.iter()] == [element.tag for element in tree.iter()]
        self.holds("a title is text", file, status == 0 and same, f"{title!r}")
        self.holds("a title is text", file, other.findtext(SVG + "title") == shown(title), f"{title!r} is read as {other.findtext(SVG + 'title')!r}")

    def look_at_labels(self, file, tree):
        met = in_picture(tree)
        kind = "level" if is_level(tree) else "slanted"
        self.counts[f"{kind} charts"] += 1
        self.counts[f"texts of {kind} charts"] += met.texts
        self.counts[f"pairs of labels of {kind} charts"] += met.pairs
        self.counts[f"pairs with a number of {kind} charts"] += met.with_numbers
        self.counts[f"crossed labels of {kind} charts"] += met.crossed
        self.counts[f"labels of {kind} charts that lie on another arrow"] += met.lying
        self.counts[f"{kind} charts with such labels"] += bool(met.pairs or met.crossed)
        if kind == "level":
            self.holds("no text of a level chart lies on another or is crossed", file, not (met.pairs or met.with_numbers or met.crossed), met)

    def look_at(self, file, title):
        status, picture, stated = run(self.mscview, "draw", file)
        if status == 2:
            return
        tree = self.tree_of(file, picture)
        if tree is None:
            return
        self.holds("a picture reports only what did nothing", file, (status, stated) == (0, reported_of(file)), stated)
        self.look_at_labels(file, tree)
        self.look_at_titles(file, tree, title)
        self.look_beside(file, picture)

    def look_beside(self, file, picture):
        """The picture beside the witness of the chart's first race."""
        status, races, _ = run(self.mscrun, *(["replay"] if races_by_replay(file) else ["check"]), file)
        race = next((line.split()[1:4] for line in races.decode("ascii", "replace").splitlines() if line.startswith("race ")), None)
        if status != 1 or race is None:
            return
        status, witness, reported = run(self.mscview, "witness", file, *race)
        drawn, both, stated = run(self.mscview, "draw", "--witness", *race, file)
        self.holds("beside a witness the status and what is reported are those of witness", file, (status, reported) == (drawn, stated), (race, stated))
        if status != 1:
            self.holds("without a witness nothing is drawn", file, not both, race)
            return
        self.counts["pictures beside a witness"] += 1
        tree = self.tree_of(file, both)
        other = self.room / "witness"
        other.write_bytes(witness)
        _, alone, _ = run(self.mscview, "draw", "--title", "another run, with the two events the other way round", str(other))
        if tree is not None:
            self.holds("both pictures are those that are drawn alone, the witness's on the right", file, self.are_both(both, picture, alone), race)
            self.look_at_marks(file, tree, race)

    @staticmethod
    def are_both(both, picture, alone):
        left, right = both.find(picture), both.find(alone)
        return 0 < left < right and both.count(b"<g transform='translate(0,0)'>") == 1

    def look_at_marks(self, file, tree, race):
        """Each mark is round the event that it stands for: the points of the pictures show where events are."""
        sides = [group for group in tree if group.tag == SVG + "g" and group.get("transform", "").endswith(",0)")]
        lines = [line_of(self.run_lines(where), race[0]) for where in (file, str(self.room / "witness"))]
        number = names_of(self.run_lines(file)).index(race[0]) + 1
        places = [(int(race[1]), int(race[2])), counterparts(lines[0], lines[1], int(race[1]), int(race[2]))]
        for side, (earlier, receive) in zip(sides, places):
            square, ring = (mark_of(side, kind) for kind in ("rect", "circle"))
            self.holds("each mark is round its event", file, square == point_of(side, number, earlier), (race, "square", square, earlier))
            self.holds("each mark is round its event", file, ring == point_of(side, number, receive), (race, "ring", ring, receive))
        self.holds("there are two pictures beside each other", file, len(sides) == 2, race)

    def run_lines(self, file):
        """The chart's text that a file says or comes to."""
        words = ["replay"] if races_by_replay(file) else []
        text = run(self.mscrun, *words, file)[1] if words else pathlib.Path(file).read_bytes()
        return text.decode("ascii", "replace").split("endmsc;")[0]


def races_by_replay(file):
    """Whether a file is a schedule."""
    return pathlib.Path(file).read_bytes().startswith(b"instances ")


def reported_of(file):
    """What is reported of a schedule's commands that did nothing."""
    return not_done_text(outcome(read_schedule(pathlib.Path(file).read_bytes()))[1]) if races_by_replay(file) else b""


def names_of(text):
    return re.findall(r"^instance (\S+);$", text, re.M)


def line_of(text, name):
    """Of each event of an instance its direction and its partner."""
    part = text.split(f"instance {name};\n")[1].split("endinstance;")[0]
    return re.findall(r"^(in|out) \S+ (?:from|to) (\S+);$", part, re.M)


def counterparts(here, there, *numbers):
    """The numbers there of the events with the same direction, partner and turn."""
    def there_of(number):
        kind = here[number - 1]
        turn = here[:number].count(kind)
        return [place + 1 for place, other in enumerate(there) if other == kind][turn - 1]
    return tuple(there_of(number) for number in numbers)


def mark_of(side, kind):
    """The middle of a mark of this kind."""
    mark = next(element for element in side if element.tag == SVG + kind and element.get("class") == "v")
    if kind == "circle":
        return (int(mark.get("cx")), int(mark.get("cy")))
    return (int(mark.get("x")) + 8, int(mark.get("y")) + 8)


def point_of(side, instance, index):
    group = next(element for element in side.iter(SVG + "g") if element.get("id") == f"e{instance}-{index}")
    circle = group.find(SVG + "circle")
    return (int(circle.get("cx")), int(circle.get("cy")))


def files(judge, count, seed):
    """Each file that may say a chart, and of drawn schedules both the schedule and its chart."""
    subprocess.run(["tools/lib/read_cases", str(judge.room)], check=True)
    yield from (str(path) for path in sorted(judge.room.glob("cases/*/*/*/input")))
    for kind in ("*/*.schedule", "*/*.msc"):
        yield from (str(path) for path in sorted(pathlib.Path("examples").glob(kind)))
    for number in range(seed, seed + count):
        schedule = judge.room / "drawn.schedule"
        schedule.write_bytes(schedule_text(made_schedule(number)))
        yield str(schedule)
        status, text, _ = run(judge.mscrun, "replay", str(schedule))
        if status < 2:
            chart = judge.room / "drawn.msc"
            chart.write_bytes(text.split(b"endmsc;\n")[0] + b"endmsc;\n")
            yield str(chart)


def main(mscrun, mscview, count, seed):
    with tempfile.TemporaryDirectory() as room:
        judge = Judge(mscrun, mscview, pathlib.Path(room))
        for place, file in enumerate(files(judge, int(count), int(seed))):
            judge.look_at(file, TITLES[place % len(TITLES)])
        for number in range(int(seed), int(seed) + int(count)):
            look_at_margin(judge, run, number)
    for promise, faults in judge.faults.items():
        print(f"FAILED {promise}: {len(faults)}, such as {faults[0]}" if faults else f"held {promise}")
    for what, many in sorted(judge.counts.items()):
        print(f"{many} {what}")


if __name__ == "__main__":
    main(*sys.argv[1:])

"""
Draws diagrams from a seed on, and compares what `mscview import` answers to each with what the plain reader does.

`judge_diagrams.py TOOL COUNT SEED [--broken] [--joined] [--pictures] [PROGRAM]`: TOOL is `mscgen`, `plantuml` or
`mermaid`; some diagrams have to name it themselves. Broken ones have up to four faults. Joined ones have some of their
lines joined. With `--pictures` the rows of `mscview draw --from` have to be those of the diagram too. Without PROGRAM
the plain reader alone answers. In any case each chart has to be a possible one, which reads back as it is. At the end it
prints how often each answer came, and a digest of all texts and answers.
"""

import hashlib
import os
import subprocess
import sys
import tempfile
from collections import Counter
from typing import NamedTuple
from xml.etree import ElementTree

from broken_diagrams import broken
from chart_texts import chart_text, read_chart
from charts import events_before
from drawn_mermaid import drawn_mermaid
from drawn_mscgen import drawn_mscgen
from drawn_plantuml import drawn_plantuml
from drawn_rows import has_rows
from imported_diagrams import Answer, Options, imported, stands
from joined import Join
from made_schedules import Draw


class Flags(NamedTuple):
    are_broken: bool
    are_joined: bool
    have_pictures: bool


DRAWN = {"mscgen": drawn_mscgen, "plantuml": drawn_plantuml, "mermaid": drawn_mermaid}


def options_of(draw: Draw, text: bytes, tool: str, is_joined: bool) -> Options:
    """Seldom some lines are skipped, or what is left out is refused; and with joins some lines of the chart."""
    lines = text.count(b"\n") + 1
    first = 1 + draw.below(lines)
    skipped = ((first, first + draw.below(lines - first + 1)),) if draw.below(10) == 0 else ()
    joins = joins_of(draw, imported(tool, text, Options()).written) if is_joined else ()
    return Options(draw.below(10) == 0, skipped, joins)


def joins_of(draw: Draw, written: bytes) -> tuple[Join, ...]:
    """One join or two of some instances of a chart, seldom of a name that isn't there, or to one that is."""
    names = read_chart(written).names if written else [b"a", b"b"]
    joins = []
    for name in (b"process", b"other"):
        parts = [part for part in names if draw.below(3) == 0]
        names = [part for part in names if part not in parts or draw.below(40) == 0]
        if draw.below(20) == 0:
            parts.append(b"nobody")
        if parts:
            joins.append(Join(draw.one_of([name] * 5 + [parts[0]] * 2 + names[:1]), parts))
    return tuple(joins)


def words_of(tool: str | None, options: Options, path: str) -> list[str]:
    """The words of the command."""
    words = ["import"] if tool is None else ["import", "--from", tool]
    words += ["--strict"] if options.is_strict else []
    for first, last in options.skipped:
        words += ["--skip", f"{first}..{last}"]
    for join in options.joins:
        words += ["--join", (join.name + b"=" + b",".join(join.parts)).decode()]
    return words + [path]


def answer_of(program: str, tool: str | None, options: Options, text: bytes, path: str) -> Answer:
    with open(path, "wb") as file:
        file.write(text)
    ran = subprocess.run([program, *words_of(tool, options, path)], capture_output=True, stdin=subprocess.DEVNULL)
    return Answer(ran.returncode, ran.stdout, ran.stderr)


def has_picture(program: str, tool: str, options: Options, text: bytes, path: str) -> bool:
    """Whether the picture of a diagram that is read is well-formed, and has the diagram's rows."""
    words = ["draw", "--from", tool, *words_of(None, options, path)[1:]]
    ran = subprocess.run([program, *words], capture_output=True, stdin=subprocess.DEVNULL)
    ElementTree.fromstring(ran.stdout)
    return ran.returncode == 0 and has_rows(ran.stdout, stands(tool, text, options))


def is_sound(answer: Answer) -> bool:
    """Whether a chart is a possible one, and its text that of a chart."""
    if answer.status != 0:
        return answer.written == b"" and answer.diagnostics.startswith(b"refused: ")
    chart = read_chart(answer.written)
    events_before(chart)
    return chart_text(chart) == answer.written


def kind_of(answer: Answer) -> str:
    return "read" if answer.status == 0 else answer.diagnostics.split(b" ")[1].decode()


def judge(tool: str, count: int, seed: int, flags: Flags, program: str | None) -> int:
    """How many of so many diagrams are answered otherwise, or unsoundly."""
    seen: Counter[str] = Counter()
    digest = hashlib.sha256()
    failed = 0
    with tempfile.TemporaryDirectory() as room:
        for number in range(seed, seed + count):
            text = DRAWN[tool](number)
            draw = Draw(number)
            if flags.are_broken:
                text = broken(draw, tool, text)
            options = options_of(draw, text, tool, flags.are_joined)
            named = None if draw.below(8) == 0 else tool
            wanted = imported(named, text, options)
            answered = wanted
            if program is not None:
                answered = answer_of(program, named, options, text, os.path.join(room, "diagram"))
            if answered != wanted or not is_sound(wanted):
                failed += 1
                print("FAILED", number, words_of(named, options, "FILE"), text, answered, wanted, flush=True)
            elif flags.have_pictures and program is not None and wanted.status == 0:
                path = os.path.join(room, "diagram")
                if not has_picture(program, tool, options, text, path):
                    failed += 1
                    print("FAILED", number, "picture", words_of(named, options, "FILE"), text, flush=True)
                seen["drawn"] += 1
            seen[kind_of(wanted)] += 1
            digest.update(b"%d %d " % (len(text), wanted.status) + text + wanted.written + wanted.diagnostics)
    print(" ".join(f"{kind} {times}" for kind, times in sorted(seen.items())), "sha256", digest.hexdigest())
    return failed


def main(tool: str, count: str, seed: str, *words: str) -> int:
    program = next((word for word in words if not word.startswith("--")), None)
    flags = Flags("--broken" in words, "--joined" in words, "--pictures" in words)
    failed = judge(tool, int(count), int(seed), flags, program)
    print(f"{count} diagrams, {failed} answered otherwise than by the model", file=sys.stderr)
    return int(failed > 0)


if __name__ == "__main__":
    sys.exit(main(*sys.argv[1:]))

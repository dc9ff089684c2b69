"""
Compares what cases of `mscview import` say with what the plain reader answers: `judge_import_cases.py FOLDER..`. Left out
are folders of another command, and what is no folder. The file is named behind the options.
"""

import os
import sys

from imported_diagrams import READERS, Answer, Options, imported
from joined import Join


def options_of(words: list[str]) -> Options:
    """The options among the words of a command."""
    skipped, joins = [], []
    for word, value in zip(words, words[1:]):
        if word == "--skip":
            first, last = value.split("..")
            skipped.append((int(first), int(last)))
        elif word == "--join":
            name, parts = value.encode().split(b"=")
            joins.append(Join(name, parts.split(b",")))
    return Options("--strict" in words, tuple(skipped), tuple(joins))


def contents(folder: str, name: str) -> bytes:
    with open(os.path.join(folder, name), "rb") as file:
        return file.read()


def is_held(folder: str, words: list[str]) -> bool:
    tool = words[words.index("--from") + 1] if "--from" in words else None
    answered = imported(tool, contents(folder, "input"), options_of(words))
    return answered == Answer(int(contents(folder, "status")), contents(folder, "stdout"), contents(folder, "stderr"))


def main(folders: list[str]) -> int:
    failed = 0
    for folder in filter(os.path.isdir, folders):
        words = contents(folder, "args").decode().split()
        if words[0] != "import" or ("--from" in words and words[words.index("--from") + 1] not in READERS):
            continue
        held = is_held(folder, words)
        failed += not held
        print("held" if held else "FAILED", folder)
    return int(failed > 0)


if __name__ == "__main__":
    sys.exit(main(sys.argv[1:]))

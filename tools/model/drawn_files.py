"""Writes diagrams that are drawn by chance into a folder, each into a file: `drawn_files.py TOOL FOLDER COUNT SEED`."""

import os
import sys

from drawn_mscgen import drawn_mscgen
from drawn_plantuml import drawn_plantuml

DRAWN = {"mscgen": (drawn_mscgen, "mscgen"), "plantuml": (drawn_plantuml, "puml")}


def main(tool: str, folder: str, count: str, seed: str) -> None:
    drawn, ending = DRAWN[tool]
    for number in range(int(seed), int(seed) + int(count)):
        with open(os.path.join(folder, f"{number:06}.{ending}"), "wb") as file:
            file.write(drawn(number))


if __name__ == "__main__":
    main(*sys.argv[1:])

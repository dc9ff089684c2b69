"""What crates.txt says: its sections, and of each crate what it stands on.

A section begins with a line `# TITLE: WORDS`. A crate has a line `NAME KIND..: CRATE..`, and above it one `## WORDS`, which
say what it does.
"""
import re
from collections import namedtuple

SECTION = re.compile(r"# ([^:]+): (.+)")
COMMENT = re.compile(r"## (.*)")

Section = namedtuple("Section", "title crates")
Crate = namedtuple("Crate", "name line says below")


def crate_of(line, says):
    """The crate of a line, or None where the line names none."""
    head, colon, below = line.partition("#")[0].partition(":")
    return Crate(head.split()[0], line, says, below.split()) if colon else None


def sections_in(text):
    """The sections with their crates. What stands above the first section has no title."""
    sections, says = [Section("", [])], ""
    for line in text.split("\n"):
        section, comment, crate = SECTION.fullmatch(line), COMMENT.fullmatch(line), crate_of(line, says)
        if section:
            sections.append(Section(section[1], []))
        elif crate:
            sections[-1].crates.append(crate)
        says = comment[1] if comment else ""
    return [section for section in sections if section.crates]


def read(path="crates.txt"):
    with open(path, encoding="utf-8") as file:
        return file.read()

"""Words of PlantUML's statements, and patterns of statements."""

import re

WORD = rb"[A-Za-z0-9_.@\x80-\xff]+"
NAME = rb"(?:" + WORD + rb"|\"[^\"]+\")"
NAMES = NAME + rb"(?:\s*,\s*" + NAME + rb")*"
COLOUR = rb"(?:\#[^\s:]+)"
LINK = rb"(?:\[\[.*?\]\])"


def form(pattern: bytes) -> re.Pattern[bytes]:
    """
    A pattern of a whole statement, in any letters. Blanks in the pattern mean nothing, and `\\s` is a space, a tab or a
    carriage return, as in a diagram's lines.
    """
    for stated, meant in ((rb"[^\s", rb"[^ \t\r"), (rb"[\s", rb"[ \t\r"), (rb"\s", rb"[ \t\r]")):
        pattern = pattern.replace(stated, meant)
    return re.compile(pattern, re.VERBOSE | re.IGNORECASE)


def unquoted(name: bytes) -> bytes:
    return name.strip(b'"')


def names_in(words: bytes) -> list[bytes]:
    """The participants of a list with commas between them."""
    return [unquoted(name) for name in re.findall(NAME, words)]

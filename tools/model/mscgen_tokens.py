"""
The words, texts and signs of an mscgen text, each with its place. Written from mscgen's documents, and by trying the
program.
"""

import re
from typing import NamedTuple

from diagram_lines import Line

# Blanks and comments, which may stand between any two tokens. A comment `/*` without its end goes to the text's end.
GAP = re.compile(rb"(?:[ \t\r\n]|(?:#|//)[^\n]*|/\*.*?(?:\*/|\Z))*", re.DOTALL)

# What an arrow is written as. One to the right goes to the entity behind it, one to the left comes from there.
RIGHT = {b"->", b"=>", b">>", b"=>>", b":>"}
LEFT = {b"<-", b"<=", b"<<", b"<<=", b"<:"}
LOST_RIGHT = {b"-x", b"-X"}
LOST_LEFT = {b"x-", b"X-"}
BOTH = {b"<->", b"<=>", b"<<>>", b"<<=>>", b"<:>"}
HEADLESS = {b"--", b"==", b"..", b"::"}
EMPTY_ROWS = {b"---", b"...", b"|||"}
PUNCTUATION = {b",", b";", b"[", b"]", b"{", b"}", b"*", b"="}

SIGNS = RIGHT | LEFT | LOST_RIGHT | LOST_LEFT | BOTH | HEADLESS | EMPTY_ROWS | PUNCTUATION
# (the longest sign counts, and a sign where a word could stand too)
SIGN = re.compile(b"|".join(re.escape(sign) for sign in sorted(SIGNS, key=len, reverse=True)))
WORD = re.compile(rb"[A-Za-z0-9_]+")
# A quotation mark behind a backslash doesn't end a text.
TEXT = re.compile(rb'"(.*?)(?<!\\)"', re.DOTALL)


class Token(NamedTuple):
    """
    A token: its kind (`word`, `text`, `sign`, or `none` for what is no token), its words, those of a text without the
    marks around it, and its place.
    """

    kind: str
    words: bytes
    line: Line


def token_at(text: bytes, begin: int, line: Line) -> tuple[Token, int]:
    """The token that begins here, and where it ends."""
    for kind, form in (("text", TEXT), ("sign", SIGN), ("word", WORD)):
        if found := form.match(text, begin):
            return Token(kind, found[1] if kind == "text" else found[0], line), found.end()
    return Token("none", b"", line), len(text)


def tokens_of(text: bytes) -> list[Token]:
    """The tokens of a text, from the top. What is no token is the last one: nothing behind it is looked at."""
    tokens: list[Token] = []
    number = 1
    passed, begin = 0, GAP.match(text).end()
    while begin < len(text):
        number += text.count(b"\n", passed, begin)
        column = begin - text.rfind(b"\n", 0, begin)
        token, end = token_at(text, begin, Line(number, column, b""))
        tokens.append(token)
        passed, begin = begin, GAP.match(text, end).end()
    return tokens

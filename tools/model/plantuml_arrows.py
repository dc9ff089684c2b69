"""Arrows of PlantUML's sequence diagrams: between two participants, and from or to the edge of the diagram."""

import re
from typing import NamedTuple

from diagram_readings import Ends
from plantuml_words import LINK, NAME, WORD, form, unquoted

# A participant in an arrow, perhaps with its label.
END = (
    rb"(?: \"(?P<label{0}>[^\"]+)\"\s*as\s+(?P<word{0}>" + WORD + rb")"
    rb" | (?P<first{0}>" + WORD + rb")\s+as\s*\"(?P<quoted{0}>[^\"]+)\""
    rb" | (?P<name{0}>" + NAME + rb") )"
)
LEFT_HEAD = rb"(?:<<?|//?|\\\\?)?"
RIGHT_HEAD = rb"(?:>>?|//?|\\\\?)?"
BODY = rb"(?P<body>-+(?:\[(?P<style>[^\]]*)\]-*)?|\[(?P<early>[^\]]*)\]-+)"
# A slope is how far an end stands below the other one.
SLOPE = rb"(?:\(\d*\))?"
ANCHOR = rb"(?:\{\w+\}\s*)?"
BEHIND = rb"\s*(?P<activation>[+*!-]+)?\s*(?:\#\w+)?\s*" + LINK + rb"?\s*(?::\s*(?P<text>.*))?"

ARROW = form(
    rb"(?P<row>&\s*)?" + ANCHOR + END.replace(b"{0}", b"1") + ANCHOR + rb"\s*" + SLOPE
    + rb"(?P<left>(?:(?<=\s)[ox])?" + LEFT_HEAD + rb")" + BODY + rb"(?P<right>" + RIGHT_HEAD + rb"(?:[ox](?=\s))?)"
    + SLOPE + rb"\s*" + END.replace(b"{0}", b"2") + ANCHOR + BEHIND
)
FROM_EDGE = form(
    rb"(?P<row>&\s*)?(?:[?\[\]](?P<mark>[ox])?)?(?P<left>" + LEFT_HEAD + rb")" + BODY + rb"(?P<right>" + RIGHT_HEAD + rb")"
    + rb"(?P<other>[ox](?=\s))?\s*(?P<name>" + NAME + rb")" + BEHIND
)
TO_EDGE = form(
    rb"(?P<row>&\s*)?(?P<name>" + NAME + rb")\s*(?P<mark>(?<=\s)[ox])?(?P<left>" + LEFT_HEAD + rb")" + BODY
    + rb"(?P<right>" + RIGHT_HEAD + rb")(?:(?P<other>[ox])?[?\[\]])?" + BEHIND
)


class ArrowElement(NamedTuple):
    """What an arrow's statement says. `names` are its participants, each with its label, if it has one there."""

    ends: Ends
    names: list[tuple[bytes, bytes | None]]
    left_out: str | None
    is_lost: bool
    is_dotted: bool
    in_last_row: bool
    activation: bytes
    text: bytes


def has_head(dressing: bytes) -> bool:
    return any(sign in dressing for sign in (b"<", b">", b"/", b"\\", b"x", b"X"))


def style_words(found: re.Match[bytes]) -> set[bytes]:
    style = found["style"] or found["early"] or b""
    return {word.strip().lower() for word in style.split(b",")}


def kind_of(found: re.Match[bytes]) -> str | None:
    """For what it is an arrow is left out, if it is."""
    if b"hidden" in style_words(found):
        return "hidden arrow"
    if has_head(found["left"]) and has_head(found["right"]):
        return "arrow both ways"
    if not has_head(found["left"]) and not has_head(found["right"]):
        return "line without a head"
    return None


def is_dotted(found: re.Match[bytes]) -> bool:
    """Two dashes or more make a dotted arrow, and so do words of its style."""
    dashes = found["body"].split(b"[")[0] + found["body"].split(b"]")[-1] if b"[" in found["body"] else found["body"]
    return dashes.count(b"-") > 1 or bool(style_words(found) & {b"dotted", b"dashed"})


def named(found: re.Match[bytes], end: str) -> tuple[bytes, bytes | None]:
    """The word of a participant of an arrow, and its label."""
    if found["label" + end] is not None:
        return found["word" + end], found["label" + end]
    if found["first" + end] is not None:
        return found["first" + end], found["quoted" + end]
    return unquoted(found["name" + end]), None


def stated(found: re.Match[bytes], names: list[tuple[bytes, bytes | None]], ends: Ends, marks: bytes) -> ArrowElement:
    return ArrowElement(
        ends, names, kind_of(found), b"x" in marks.lower(), is_dotted(found), bool(found["row"]),
        found["activation"] or b"", found["text"] or b"",
    )


def goes_right(found: re.Match[bytes]) -> bool:
    """Whether an arrow goes from the left to the right of its statement. One with two heads does."""
    return has_head(found["right"]) or not has_head(found["left"])


def edge_element(found: re.Match[bytes], ends: Ends) -> ArrowElement | None:
    """An arrow from or to the edge, which has a head."""
    if not has_head(found["left"]) and not has_head(found["right"]):
        return None
    name = unquoted(found["name"])
    return stated(found, [(name, None)], ends, (found["mark"] or b"") + (found["other"] or b""))


def arrow_element(words: bytes) -> ArrowElement | None:
    """What the words of a statement say, if they are an arrow."""
    if found := ARROW.fullmatch(words):
        names = [named(found, "1"), named(found, "2")]
        one, other = names[0][0], names[1][0]
        ends = Ends(one, other) if goes_right(found) else Ends(other, one)
        return stated(found, names, ends, found["left"] + found["right"])
    if found := FROM_EDGE.fullmatch(words):
        name = unquoted(found["name"])
        return edge_element(found, Ends(None, name) if goes_right(found) else Ends(name, None))
    if found := TO_EDGE.fullmatch(words):
        name = unquoted(found["name"])
        return edge_element(found, Ends(name, None) if goes_right(found) else Ends(None, name))
    return None

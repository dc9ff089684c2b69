"""Diagrams that are broken by chance: bytes, words and lines are left out, put in, exchanged or cut off."""

from typing import Callable

from made_schedules import Draw

COMMON = [
    b"\n", b"\n\n", b"\r", b" ", b"\t", b":", b";", b"#", b'"', b"-", b"->", b"x", b"\\", b"\\n", b"end", b"else",
    b"alt a", b"par",
    b"break", b"note over a: b", b"note left", b"a -> b : c", b"\x00", b"\xc3\xa4", b"\xff", b",", b"(", b")", b"{",
    b"}", b"[", b"]",
]
WORDS = {
    "mscgen": COMMON + [
        b"msc", b"msc {", b"{", b"}", b"*", b"=", b"=>", b"<-", b"<<=>>", b"--", b"...", b"|||", b"---", b"-x", b"x-",
        b"a box b;", b"P0 note P1;", b"P0 -> P1;", b"P0 -> *;", b"* <- P0,", b"* -> P0", b"[", b"]", b"[label=\"x\"]",
        b"label=", b"arcskip=\"1\"", b"arcskip=\"4294967296\"", b"arcskip=x", b"linecolour=red", b"colour=red", b"//",
        b"/*", b"*/", b"\\\"", b"hscale=1;", b"P0", b"P1,", b"nobody", b"\xef\xbb\xbf",
        b"P0 note P0 [label=\"out late to P1\"];", b"P1 note P1 [label=\"in late from P0\"];",
    ],
    "plantuml": COMMON + [
        b"@startuml", b"@enduml", b"end note", b"endnote", b"/'", b"'/", b"'", b"!if x", b"!else", b"!endif",
        b"!definelong",
        b"!enddefinelong", b"skinparam {", b"title", b"end title", b"legend", b"endlegend", b"ref over a", b"end ref",
        b"box", b"end box",
        b"return", b"activate a", b"deactivate", b"++", b"--", b"**", b"!!", b"autoactivate on", b"create",
        b"participant", b" as ", b"& ",
        b"o", b"<", b"<<", b">>", b"[->", b"->]", b"?", b"{a}", b"[hidden]", b"...", b"==", b"|||", b"group",
        b"out late to P1", b"|",
    ],
    "mermaid": COMMON + [
        b"sequenceDiagram", b"---", b"%%", b"%%{", b"}%%", b"accDescr {", b"accTitle: x", b"and", b"option", b"rect",
        b"box", b"critical",
        b"->>", b"-->>", b"-)", b"--x", b"<<->>", b"-|\\", b"//-", b"()", b"+", b"autonumber", b"title x",
        b"links a: {}", b"activate a",
        b"create participant", b"participant", b"actor", b" as ", b"@{ }", b"<br/>", b"wrap:", b"#35;", b"over a,b",
        b"loop", b"par_over",
        b"Note over P0: out late to P1", b"Note over P1: in late from P0", b"destroy a",
    ],
}


def place(draw: Draw, text: bytes) -> int:
    return draw.below(len(text) + 1)


def without_bytes(draw: Draw, text: bytes, words: list[bytes]) -> bytes:
    begin = place(draw, text)
    return text[:begin] + text[begin + 1 + draw.below(12):]


def with_word(draw: Draw, text: bytes, words: list[bytes]) -> bytes:
    begin = place(draw, text)
    return text[:begin] + draw.one_of(words) + text[begin:]


def with_line(draw: Draw, text: bytes, words: list[bytes]) -> bytes:
    lines = text.split(b"\n")
    lines.insert(draw.below(len(lines) + 1), draw.one_of(words))
    return b"\n".join(lines)


def without_line(draw: Draw, text: bytes, words: list[bytes]) -> bytes:
    lines = text.split(b"\n")
    del lines[draw.below(len(lines))]
    return b"\n".join(lines)


def with_line_twice(draw: Draw, text: bytes, words: list[bytes]) -> bytes:
    lines = text.split(b"\n")
    lines.insert(draw.below(len(lines) + 1), draw.one_of(lines))
    return b"\n".join(lines)


def with_other_byte(draw: Draw, text: bytes, words: list[bytes]) -> bytes:
    begin = place(draw, text)
    return text[:begin] + bytes([draw.below(256)]) + text[begin + 1:]


def cut_off(draw: Draw, text: bytes, words: list[bytes]) -> bytes:
    return text[:place(draw, text)]


Break = Callable[[Draw, bytes, list[bytes]], bytes]
BREAKS: list[Break] = [
    without_bytes, without_bytes, with_word, with_word, with_word, with_line, with_line, without_line, without_line,
    with_line_twice, with_other_byte, cut_off,
]


def broken(draw: Draw, tool: str, text: bytes) -> bytes:
    """The text with up to four faults."""
    for _ in range(1 + draw.below(4)):
        text = draw.one_of(BREAKS)(draw, text, WORDS[tool])
    return text

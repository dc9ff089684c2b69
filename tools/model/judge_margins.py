"""
Looks at the margins of the pictures that `mscview draw --from` writes, of drawn diagrams with hostile notes.

Of each tool's language a diagram has four messages, one below the other, and between them notes over both lines and, but in
Mermaid, dividers. In its picture each text has to stand between the rows that it stands between in the diagram, those of one
place joined; nothing else may be there that isn't in the picture of the same diagram without notes, but a dashed line for each
place with a divider. Nothing is reported on standard error.
"""

import random
import xml.etree.ElementTree as trees

SVG = "{http://www.w3.org/2000/svg}"
TEXTS = [
    b"<script>alert(1)</script>", b"\"'><g id='x'/>", b"]]><!-- <![CDATA[ -->", b"&amp &#60 & < > ok", b"<?xml version='1.0'?>",
    b"\x01\x02\x1f\x7f", "\u00e4\u202e".encode(), b"%s %n {0} $HOME `id`", b"plain words", b"a</text><text>b",
]
MESSAGES = 4


def mscgen(places):
    lines = [b"msc {", b"  a, b;"]
    for place, notes in enumerate(places):
        for text, divides in notes:
            label = text.replace(b'"', b'\\"')
            lines.append((b'  --- [label="%s"];' if divides else b'  a note b [label="%s"];') % label)
        if place < MESSAGES:
            lines.append(b'  a->b [label="m%d"];' % place)
    return lines + [b"}"]


def plantuml(places):
    lines = [b"@startuml"]
    for place, notes in enumerate(places):
        for text, divides in notes:
            lines.append((b"== %s ==" if divides else b"note over a, b : %s") % text)
        if place < MESSAGES:
            lines.append(b"a -> b : m%d" % place)
    return lines + [b"@enduml"]


def mermaid(places):
    lines = [b"sequenceDiagram", b"participant a", b"participant b"]
    for place, notes in enumerate(places):
        lines += [b"Note over a,b: " + text for text, _ in notes]
        if place < MESSAGES:
            lines.append(b"a->>b: m%d" % place)
    return lines


TOOLS = {"mscgen": mscgen, "plantuml": plantuml, "mermaid": mermaid}


def in_one_line(text):
    """Words as a reader of XML shows them: what is no printable ASCII character is `?`."""
    return " ".join("".join(chr(byte) if 32 <= byte <= 126 else "?" for byte in text).split())


def drawn_places(number):
    """Notes and dividers above each message and below the last one."""
    draw = random.Random(number)
    return [[(draw.choice(TEXTS), draw.random() < 0.4) for _ in range(draw.choice((0, 0, 1, 1, 2)))] for _ in range(MESSAGES + 1)]


def words_of(element):
    return " ".join("".join(element.itertext()).split())


def rows_of(tree):
    """The height of each message, from the top."""
    return [int(path.get("d").split("L")[0].split()[1]) for path in tree.iter(SVG + "path") if path.get("class") == "m"]


def look_at_margin(judge, run, number):
    """The margin of a diagram of each tool."""
    places = drawn_places(number)
    for tool, text_of in TOOLS.items():
        what = f"{tool} {number}"
        pictures = []
        for notes in (places, [[] for _ in places]):
            file = judge.room / "diagram"
            file.write_bytes(b"\n".join(text_of(notes)) + b"\n")
            status, picture, stated = run(judge.mscview, "draw", "--from", tool, str(file))
            judge.holds("a diagram with notes is drawn, and nothing is reported", what, status == 0 and not stated, (status, stated))
            pictures.append(judge.tree_of(what, picture))
        if None in pictures:
            continue
        judge.counts["margins"] += 1
        look_at_texts(judge, what, places, *pictures, tool != "mermaid")


def look_at_texts(judge, what, places, noted, bare, has_dividers):
    rows = rows_of(noted)
    heights = [row - 8 for row in rows] + [rows[-1] + 16]
    wanted = [(height, " / ".join(in_one_line(text) for text, _ in notes)) for height, notes in zip(heights, places) if notes]
    left = int(bare.get("width"))
    found = [(int(text.get("y")), words_of(text)) for text in noted.iter(SVG + "text") if int(text.get("x")) >= left]
    judge.holds("each text of a margin is text, at its row", what, found == wanted, (found, wanted))
    dashed = [path for path in noted.iter(SVG + "path") if path.get("stroke-dasharray")]
    parted = sum(has_dividers and any(divides for _, divides in notes) for notes in places)
    judge.holds("each divider has its line", what, len(dashed) == parted, (len(dashed), parted))
    more = len(list(noted.iter())) - len(list(bare.iter()))
    judge.holds("a margin has nothing but its texts and lines", what, more == len(wanted) + parted, (more, len(wanted), parted))
    longest = max((len(words) for _, words in wanted), default=0)
    room = int(noted.get("width")) - left
    judge.holds("a margin is as wide as its widest text", what, room >= longest * 20 // 3 and (longest > 0 or room == 0), (room, longest))

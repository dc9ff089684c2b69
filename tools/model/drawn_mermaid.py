"""Sequence diagrams of Mermaid that are drawn by chance from a seed, with all forms that are read."""

from drawn_words import Pen
from made_schedules import Draw

MESSAGES = [b"->>", b"-->>", b"->>", b"-->>", b"->", b"-->", b"-)", b"--)"]
HALF_HEADS = [
    b"-|\\", b"--|\\", b"-|/", b"--|/", b"-\\\\", b"--\\\\", b"-//", b"--//",
    b"/|-", b"/|--", b"\\|-", b"\\|--", b"//-", b"//--", b"\\\\-", b"\\\\--", b"()->>", b"->>()",
]
LOST = [b"-x", b"--x", b"-X"]
BOTH = [b"<<->>", b"<<-->>"]
# Groups, each with the word that begins another branch of it.
GROUPS = [
    (b"alt", b"else"), (b"opt", b"else"), (b"loop", b"else"), (b"par", b"and"), (b"critical", b"option"),
    (b"break", b"else"), (b"par_over", b"and"), (b"rect rgb(191, 223, 255)", None),
]
TITLE_BLOCKS = [
    [], [], [b"---", b"title: A diagram", b"---"],
    [b"---", b"config:", b"  theme: base", b"  sequence: { mirrorActors: false }", b"---"],
]
LOOKS = [
    [b"%% a comment", b"%% A->>B: x"], [b"%%{init: {'theme': 'dark'}}%%"],
    [b"%%{init: {", b"  'theme': 'dark'", b"}}%%"], [b"%%"],
    [b"# a comment"], [b""], [b"title A diagram"], [b"title: A diagram"], [b"accTitle: A diagram; of two"],
    [b"accDescr: What it says"], [b"accDescr {", b"A->>B: in a description", b"}"], [b"autonumber"], [b"autonumber 10 5"],
    [b"autonumber off"],
]
OF_A_PARTICIPANT = [
    b"link %s: Docs @ https://a.b/c", b"links %s: {\"Docs\": \"https://a.b/c\"}", b"properties %s: {\"class\": \"x\"}",
    b"details %s: more", b"activate %s", b"deactivate %s", b"destroy %s",
]
NOTES = [b"left of %s: text", b"right of %s: text", b"over %s: text<br/>more", b"over %s: A->>B: x", b"over %s:"]


class MermaidPen(Pen):
    """Writes a diagram line by line."""

    def __init__(self, draw: Draw):
        super().__init__(draw)
        # The word that begins another branch of each group that is open.
        self.other_words: list[bytes | None] = []

    def note_line(self, where: bytes, word: bytes, text: bytes) -> None:
        self.line(b"Note %s %s: %s" % (where, word, text))

    def label(self) -> bytes:
        """A label without what ends a statement."""
        label = self.any_label().replace(b"\\n", self.draw.one_of([b"<br/>", b"<br>", b"<BR />", b"\\n"]))
        return label + self.draw.one_of([b""] * 12 + [b" #9829; ", b" # a comment", b";"])

    def new_participant(self) -> None:
        draw, number = self.draw, len(self.words)
        word = draw.one_of([b"P%d", b"P%d", b"Node %d", b"web-server-%d", b"a.b%d", b"\xc3\xa4%d"]) % number
        verb = self.keyword(draw.one_of([b"participant", b"participant", b"actor", b"create participant", b"create actor"]))
        kind = draw.one_of([b""] * 8 + [b"@{ \"type\": \"queue\" }"])
        has_label = draw.below(2) == 0
        self.line(verb + b" " + word + kind + (b" as " + (self.label() or b"x") if has_label else b""))
        if word.startswith(b"P") and not has_label:
            self.plain_words.append(word)
        self.words.append(word)

    def arrow(self) -> None:
        draw = self.draw
        one, other = self.two_words()
        if draw.below(20) == 0:
            other = b"Late%d" % len(self.words)
            self.words.append(other)
        sign = draw.one_of(MESSAGES * 6 + HALF_HEADS + LOST * 2 + BOTH * 2)
        blank = draw.one_of([b"", b"", b" "])
        activation = draw.one_of([b""] * 6 + [b"+", b"-"])
        stated = one + blank + sign + activation + blank + other
        stated += draw.one_of([b": ", b":", b" : ", b":wrap: ", b": nowrap:"]) + self.label()
        if draw.below(12) == 0 and b"#" not in stated:
            stated += draw.one_of([b"; ", b";"]) + one + b"->>" + other + b": behind"
        self.line(stated)

    def note(self) -> None:
        stated = self.draw.one_of(NOTES) % self.draw.one_of(self.words)
        if self.draw.below(3) == 0:
            stated = b"over %s,%s: text" % self.two_words()
        self.line(self.draw.one_of([b"Note ", b"note ", b"NOTE "]) + stated)

    def look(self) -> None:
        for line in self.draw.one_of(LOOKS):
            self.line(line)

    def of_a_participant(self) -> None:
        self.line(self.draw.one_of(OF_A_PARTICIPANT) % self.draw.one_of(self.words))

    def box(self) -> None:
        self.line(self.keyword(b"box") + self.draw.one_of([b"", b" Aqua Servers", b" rgb(1,2,3)", b" transparent A box"]))
        for _ in range(self.draw.below(3)):
            self.new_participant()
        self.line(b"end")

    def begin_group(self) -> None:
        word, other = self.draw.one_of(GROUPS)
        self.left_out.append(word == b"break" or any(self.left_out))
        self.other_words.append(other)
        self.line(self.keyword(word) + self.draw.one_of([b"", b" some case", b" [a guard] # of it"]))

    def next_branch(self) -> None:
        if not self.left_out or self.other_words[-1] is None:
            return
        word = self.other_words[-1]
        self.left_out[-1] = any(self.left_out[:-1]) or word != b"and"
        self.line(self.keyword(word) + self.draw.one_of([b"", b" otherwise"]))

    def end_group(self) -> None:
        if self.left_out:
            self.left_out.pop()
            self.other_words.pop()
            self.line(self.keyword(b"end") + self.draw.one_of([b"", b"", b" # of it", b";"]))


STEPS = (
    ["arrow"] * 16 + ["note", "note"] + ["event_note"] * 6 + ["look", "look", "of_a_participant", "box"]
    + ["begin_group", "begin_group", "next_branch", "end_group", "end_group", "new_participant"]
)


def drawn_mermaid(seed: int) -> bytes:
    """The diagram of a seed."""
    draw = Draw(seed)
    pen = MermaidPen(draw)
    for stated in draw.one_of(TITLE_BLOCKS):
        pen.line(stated)
    if draw.below(3) == 0:
        pen.look()
    pen.line(draw.one_of([b"sequenceDiagram", b"sequenceDiagram", b"sequencediagram"]))
    for _ in range(2 + draw.below(5)):
        pen.new_participant()
    for _ in range(draw.one_of([0, 4, 12, 30, 80])):
        getattr(pen, draw.one_of(STEPS))()
    while pen.left_out:
        pen.end_group()
    pen.receive_all()
    return pen.text()

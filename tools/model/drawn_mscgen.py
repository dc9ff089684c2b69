"""Sequence diagrams of mscgen that are drawn by chance from a seed, with all forms that are read."""

from drawn_words import Pen
from made_schedules import Draw

RIGHT = [b"->", b"=>", b">>", b"=>>", b":>"]
LEFT = [b"<-", b"<=", b"<<", b"<<=", b"<:"]
LOST = [b"-x", b"-X", b"x-", b"X-"]
LEFT_OUT = [b"<->", b"<=>", b"<<>>", b"<<=>>", b"<:>", b"--", b"==", b"..", b"::"]
BOXES = [b"box", b"abox", b"rbox"]
EMPTY_ROWS = [b"|||", b"|||", b"...", b"---"]
OPTIONS = [b'hscale = "1.5"', b"width=600", b"arcgradient=\"8\"", b"wordwraparcs = on", b"HSCALE=2"]
LOOKS = [
    b'linecolour="red"', b'textcolour="#ff7f7f"', b"textbgcolour=yellow", b"arclinecolour=green", b"arctextcolour=blue",
    b"arctextbgcolour=gray", b"linecolor=red", b"textcolor=red", b"textbgcolor=red", b'URL="www.a.b"', b'ID="*"',
    b'IDURL="www.a.b"', b"LINECOLOUR=red", b"id=1", b"arclinecolor=red", b"arctextcolor=red", b"arctextbgcolor=red",
]
# What may stand between two tokens: blanks, line ends and comments.
GAPS = [b" "] * 20 + [
    b"", b"  ", b"\t", b"\n    ", b"\n", b" /* a comment */ ", b" // of a line\n", b" # a -> b;\n", b"/* a\n -> b; */",
    b"\n\n", b" /**/ ",
]
# Entities that aren't words, as a text in quotation marks each.
QUOTED = [b'"node %d"', b'"a.b%d"', b'"\xc3\xa4%d"', b'"x-%d"', b'"say \\"%d\\""']


class MscgenPen(Pen):
    """Writes a diagram token by token, so that mscgen takes each of them."""

    def __init__(self, draw: Draw):
        super().__init__(draw)
        self.tokens: list[bytes] = []
        # In some diagrams nothing but a blank stands between two tokens, and each row has a line.
        self.is_plain = draw.below(3) == 0

    def keyword(self, word: bytes) -> bytes:
        """A keyword, seldom in capital letters. (The program takes no mixed ones.)"""
        return self.draw.one_of([word] * 6 + [word.upper()])

    def put(self, *tokens: bytes) -> None:
        self.tokens += tokens

    def quoted(self, label: bytes) -> bytes:
        """A label in quotation marks, seldom over two lines, as a text that begins with a blank."""
        label = label.replace(b'\\"', b'"').replace(b'"', b'\\"')
        if self.draw.below(10) == 0:
            label = label.replace(b" ", self.draw.one_of([b"\n      ", b" \n", b"\r\n"]), 1)
        return b'"' + label + b'"'

    def put_attributes(self, attributes: list[bytes]) -> None:
        """Attributes and some looks, in any order. Without any there are no brackets."""
        attributes = attributes + [self.draw.one_of(LOOKS) for _ in range(self.draw.below(3) * self.draw.below(2))]
        if not attributes:
            return
        if self.draw.below(2):
            attributes.reverse()
        self.put(b"[")
        for attribute in attributes:
            name, value = attribute.split(b"=", 1)
            self.put(*([b","] if self.tokens[-1] != b"[" else []), name, b"=", value)
        self.put(b"]")

    def label(self) -> list[bytes]:
        """A label, seldom none."""
        if self.draw.below(10) == 0:
            return []
        return [self.keyword(b"label") + b"=" + self.quoted(self.any_label())]

    def entities(self) -> None:
        """The entities, seldom with one that was named before."""
        for number in range(2 + self.draw.below(6)):
            form = self.draw.below(8)
            word = self.draw.one_of(QUOTED) % number if form == 0 else b"P%d" % number
            if form == 1:
                word = self.draw.one_of([b"x%d", b"%d", b"msc%d", b"box%d"]) % number
            attributes = self.label() if self.draw.below(2) else []
            if word.startswith(b"P") and not attributes:
                self.plain_words.append(word)
            self.words.append(word)
            self.put(*([b","] if number else []), word)
            self.put_attributes(attributes)
        if self.draw.below(20) == 0:
            self.put(b",", self.draw.one_of(self.words))
        self.put(b";")

    def written(self, word: bytes) -> bytes:
        """An entity's word, seldom in quotation marks."""
        if word.startswith(b'"') or self.draw.below(12):
            return word
        return b'"' + word + b'"'

    def pair(self, sign: bytes, attributes: list[bytes]) -> None:
        one, other = self.two_words()
        self.put(self.written(one), sign, self.written(other))
        self.put_attributes(attributes)

    def message(self) -> None:
        """A message, often one that ends some rows further down."""
        attributes = self.label()
        if self.draw.below(12) == 0:
            attributes.append(self.keyword(b"arcskip") + b'="%d"' % self.draw.below(4))
        self.pair(self.draw.one_of(RIGHT * 3 + LEFT * 2), attributes)

    def lost(self) -> None:
        self.pair(self.draw.one_of(LOST), self.label())

    def broadcast(self) -> None:
        word = self.written(self.draw.one_of(self.words))
        if self.draw.below(2):
            self.put(word, self.draw.one_of(RIGHT + [b"-x"]), b"*")
        else:
            self.put(b"*", self.draw.one_of(LEFT + [b"x-"]), word)
        self.put_attributes(self.label())

    def left_out_arc(self) -> None:
        self.pair(self.draw.one_of(LEFT_OUT), self.label())

    def box(self) -> None:
        self.pair(self.keyword(self.draw.one_of(BOXES)), self.label())

    def note(self) -> None:
        one, other = self.two_words()
        self.put(one, self.keyword(b"note"), self.draw.one_of([one, other]))
        self.put_attributes(self.label())

    def empty_row(self) -> None:
        self.put(self.draw.one_of(EMPTY_ROWS))
        self.put_attributes(self.label() if self.draw.below(3) == 0 else [])

    def note_line(self, where: bytes, word: bytes, text: bytes) -> None:
        """A note in words of our own. `where` means nothing here."""
        self.put(word, b"note", word, b"[", b"label", b"=", self.quoted(text), b"]")

    def arc(self) -> None:
        begin = len(self.tokens)
        getattr(self, self.draw.one_of(ARCS))()
        if len(self.tokens) == begin:
            self.empty_row()
        # (what is numbered by lines is numbered by arcs here)
        self.lines.append(b"")

    def row(self) -> None:
        """A row of arcs, mostly of one."""
        self.arc()
        while self.draw.below(6) == 0:
            self.put(b",")
            self.arc()
        self.put(b";")

    def receive_all(self) -> None:
        """Notes of what is owed, each in a row of its own, seldom not of the last."""
        while len(self.owed) > 1 or (self.owed and self.draw.below(4)):
            self.receive_owed(0)
            self.put(b";")

    def gap(self, before: bytes, behind: bytes) -> bytes:
        """What stands between two tokens. Words need something between them, and an `x` before a dash."""
        if self.is_plain:
            return b"\n  " if before in (b";", b"{") else b" "
        gap = self.draw.one_of(GAPS)
        needs_one = before[-1:].isalnum() and (behind[:1].isalnum() or behind.startswith((b"-", b".")))
        return b" " if needs_one and not gap else gap

    def text(self) -> bytes:
        """The text."""
        text = self.draw.one_of([b"", b"", b"# of mscgen\n", b"/* msc { */\n", b"\xef\xbb\xbf", b"\n\n"])
        before = b""
        for token in self.tokens:
            text += (self.gap(before, token) if before else b"") + token
            before = token
        text += self.draw.one_of([b"\n", b"\n", b"", b" # end\n", b"\n/* end", b"\n// }\n"])
        return text.replace(b"\n", self.line_end)


ARCS = (
    ["message"] * 16 + ["lost"] * 3 + ["broadcast"] * 2 + ["left_out_arc"] * 2 + ["box"] * 2 + ["note", "empty_row"]
    + ["event_note"] * 5
)


def drawn_mscgen(seed: int) -> bytes:
    """The diagram of a seed."""
    draw = Draw(seed)
    pen = MscgenPen(draw)
    pen.put(b"msc", b"{")
    for number in range(draw.below(3) * draw.below(2)):
        name, value = draw.one_of(OPTIONS).split(b"=", 1)
        pen.put(*([b","] if number else []), name.strip(), b"=", value.strip())
    if pen.tokens[-1] != b"{":
        pen.put(b";")
    pen.entities()
    for _ in range(1 + draw.one_of([0, 4, 12, 30, 80])):
        pen.row()
    pen.receive_all()
    pen.put(b"}")
    return pen.text()

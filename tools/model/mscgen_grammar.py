"""
The statements of an mscgen text: its entities, and rows of arcs. Written from mscgen's documents, and by trying the
program.
"""

from typing import NamedTuple

from diagram_lines import Line
from diagram_readings import NotRead, Unfinished
from mscgen_tokens import BOTH, EMPTY_ROWS, HEADLESS, LEFT, LOST_LEFT, LOST_RIGHT, RIGHT, Token, tokens_of

OPTIONS = {b"hscale", b"width", b"arcgradient", b"wordwraparcs"}
BOXES = {b"box", b"abox", b"rbox"}
# Attributes that say how something looks, or where a link leads.
COLOURS = {
    who + what + spelled for who in (b"", b"arc") for what in (b"line", b"text", b"textbg")
    for spelled in (b"colour", b"color")
}
LOOKS = COLOURS | {b"url", b"id", b"idurl"}


class Attributes(NamedTuple):
    """A label, if there is one, and how many rows further down an arc ends."""

    label: bytes | None = None
    rows_down: int = 0


class Entity(NamedTuple):
    word: bytes
    label: bytes | None
    line: Line


class Arc(NamedTuple):
    """
    An arc from one entity to another, or to all others: then its receiver is `None`. Its kind is one of `message`,
    `lost`, `both`, `headless`, `box`, `note` and `empty`, which goes from nowhere to nowhere.
    """

    kind: str
    sender: bytes
    receiver: bytes | None
    attributes: Attributes
    line: Line


class Msc(NamedTuple):
    entities: list[Entity]
    rows: list[list[Arc]]


class Grammar:
    """Reads tokens, from the first one on. What can't stand where it stands is `NotRead`."""

    def __init__(self, text: bytes):
        self.tokens = tokens_of(text)
        self.at = 0

    @property
    def next(self) -> Token:
        if self.at == len(self.tokens):
            raise Unfinished
        return self.tokens[self.at]

    def take(self, is_right: bool) -> Token:
        """The next token, if it is a right one."""
        token = self.next
        if not is_right:
            raise NotRead(token.line)
        self.at += 1
        return token

    def is_sign(self, words: bytes) -> bool:
        return self.next.kind == "sign" and self.next.words == words

    def sign(self, words: bytes) -> None:
        self.take(self.is_sign(words))

    def has_sign(self, words: bytes) -> bool:
        """Whether this sign stands next, which is passed then."""
        if not self.is_sign(words):
            return False
        self.at += 1
        return True

    def goes_on(self, end: bytes) -> bool:
        """Whether a list goes on behind a comma. Else its end has to stand here."""
        if self.has_sign(b","):
            return True
        self.sign(end)
        return False

    def word(self, words: set[bytes]) -> bytes:
        """One of these words, in any letters."""
        return self.take(self.next.kind == "word" and self.next.words.lower() in words).words.lower()

    def name(self) -> bytes:
        return self.take(self.next.kind in ("word", "text")).words

    def msc(self) -> Msc:
        self.take(self.next.kind == "word" and self.next.words == b"msc")
        self.sign(b"{")
        self.options()
        entities = self.entities()
        rows = [self.row()]
        while not self.has_sign(b"}"):
            rows.append(self.row())
        if self.at < len(self.tokens):
            raise NotRead(self.next.line)
        return Msc(entities, rows)

    def options(self) -> None:
        """The options, if there are some: behind the first token stands an equals sign."""
        behind = self.tokens[self.at + 1:self.at + 2]
        if not behind or behind[0].kind != "sign" or behind[0].words != b"=":
            return
        while True:
            self.word(OPTIONS)
            self.sign(b"=")
            self.name()
            if not self.goes_on(b";"):
                return

    def entities(self) -> list[Entity]:
        entities = []
        while True:
            line = self.next.line
            word = self.name()
            entities.append(Entity(word, self.attributes().label, line))
            if not self.goes_on(b";"):
                return entities

    def row(self) -> list[Arc]:
        arcs = []
        while True:
            line = self.next.line
            kind, sender, receiver = self.ends()
            arcs.append(Arc(kind, sender, receiver, self.attributes(), line))
            if not self.goes_on(b";"):
                return arcs

    def ends(self) -> tuple[str, bytes, bytes | None]:
        """An arc's kind, and from where to where it goes. A `*` is all others."""
        if self.next.kind == "sign" and self.next.words in EMPTY_ROWS:
            self.at += 1
            return "empty", b"", b""
        if self.has_sign(b"*"):
            relation = self.take(self.next.kind == "sign" and self.next.words in LEFT | LOST_LEFT).words
            return kind_of(relation), self.name(), None
        first = self.name()
        relation = self.relation()
        if self.is_sign(b"*"):
            self.take(relation in RIGHT | LOST_RIGHT)
            return kind_of(relation), first, None
        second = self.name()
        if relation in LEFT | LOST_LEFT:
            return kind_of(relation), second, first
        return kind_of(relation), first, second

    def relation(self) -> bytes:
        """What stands between two entities: an arrow, a line, a box or a note."""
        if self.next.kind == "word":
            return self.word(BOXES | {b"note"})
        return self.take(self.next.kind == "sign" and kind_of(self.next.words) != "").words

    def attributes(self) -> Attributes:
        attributes = Attributes()
        if not self.has_sign(b"["):
            return attributes
        while True:
            name = self.word(LOOKS | {b"label", b"arcskip"})
            self.sign(b"=")
            if name == b"arcskip":
                is_number = self.next.kind in ("word", "text") and is_rows_down(self.next.words)
                attributes = attributes._replace(rows_down=int(self.take(is_number).words.lstrip(b"0") or b"0"))
            elif name == b"label":
                attributes = attributes._replace(label=self.name())
            else:
                self.name()
            if not self.goes_on(b"]"):
                return attributes


def is_rows_down(words: bytes) -> bool:
    """Whether these are decimal digits of a number of 32 bits."""
    return words.isdigit() and len(words.lstrip(b"0")) <= 10 and int(words.lstrip(b"0") or b"0") < 2**32


def kind_of(relation: bytes) -> str:
    """The kind of the arcs with this relation; the empty one for a sign that is none."""
    kinds = (
        (RIGHT | LEFT, "message"), (LOST_RIGHT | LOST_LEFT, "lost"), (BOTH, "both"), (HEADLESS, "headless"),
        (BOXES, "box"), ({b"note"}, "note"),
    )
    return next((kind for relations, kind in kinds if relation in relations), "")

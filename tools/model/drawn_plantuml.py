"""Sequence diagrams of PlantUML that are drawn by chance from a seed, with all forms that are read."""

from drawn_words import Pen
from made_schedules import Draw

KINDS = [b"participant"] * 6 + [
    b"actor", b"boundary", b"control", b"entity", b"queue", b"database", b"collections",
]
STEREOTYPES = [b""] * 6 + [b" <<stereo>>", b" << (C,#ADD1B2) kind >>", b" order 10", b" [[http://a.b]]"]
COLOURS = [b""] * 6 + [b" #red", b" #99FF99", b" #red/blue"]
# Arrows, with a blank at an end where one is needed.
RIGHT = [
    b"->", b"-->", b"->>", b"-->>", b"--->", b" -\\ ", b" -\\\\ ", b"-/", b"--//", b" ->o ", b" o-> ", b" o->o ", b" -->>o ",
    b"-[#red]>", b"-[#blue]->", b"-[#red,dashed]>>", b"-[bold]>", b"-[thickness=3]>", b"-[dotted]>",
]
LEFT = [
    b"<-", b"<--", b"<<-", b"<<--", b" \\- ", b" \\\\-- ", b"/-", b"//--", b" <-o ", b" o<- ", b"<[#red]-", b"<-[#green]-",
]
LOST = [b" ->x ", b" -->x ", b" -x ", b" x<- ", b" x- ", b" --x ", b" ->X "]
LEFT_OUT = [b"<->", b"<-->", b"<<->>", b"-[hidden]>", b" x-> ", b" <-x ", b" o<->o "]
EDGES = [
    b"[-> %s", b"[<- %s", b"%s ->]", b"%s <-]", b"[o-> %s", b"[x<- %s", b"%s ->o]", b"?-> %s", b"%s ->?", b"[-[#red]> %s",
    b"-> %s", b"%s ->", b"[--\\\\ %s", b"]<- %s", b"%s ->x]",
]
GROUPS = [b"alt", b"opt", b"loop", b"par", b"group", b"critical", b"break", b"par2", b"alt#Gold #LightBlue", b"& opt"]
LOOKS = [
    [b"title A diagram"], [b"title", b"a -> b : in a title", b"end title"], [b"legend right", b"a -> b", b"endlegend"],
    [b"header page", b"footer : x"], [b"header", b"end", b"endheader"], [b"left footer", b"note left", b"end footer"],
    [b"caption below"], [b"mainframe an outer frame"], [b"skinparam monochrome true"],
    [b"skinparam {", b"a b", b"Arrow {", b"Color red", b"}", b"}"],
    [b"skinparam sequence {", b"LifeLineBorderColor blue", b"}"],
    [b"hide footbox"], [b"hide unlinked"], [b"show footbox"], [b"autonumber"], [b'autonumber 10 10 "<b>[000]"'],
    [b"autonumber", b"autonumber stop", b"autonumber resume 7"], [b"scale 1.5"], [b"newpage"], [b"newpage a title"],
    [b"|||"], [b"||20||"],
    [b"autonewpage 5"], [b"ignore newpage"], [b"skin rose"], [b"<style>", b"arrow { color red }", b"</style>"],
    [b"sprite $dot [4x4/16] {", b"0FF0", b"F00F", b"F00F", b"0FF0", b"}"], [b"{one} <-> {two} : a while"],
    [b"== part ==", b"...", b"... later ...", b"== =="],
    [b"!pragma graphviz_dot none"], [b"!define UNUSED 1"], [b"!$unused = 1"],
    [b"!definelong UNUSED_LONG(x)", b"a -> b : x", b"!enddefinelong"],
    [b"!ifndef UNKNOWN", b"' none", b"!else", b"never -> here : x", b"!ifdef X", b"!else", b"!endif", b"!endif"],
    [b"' a comment", b"' a -> b : x"], [b"/' a comment '/"], [b"/' a comment", b"a -> b : x", b"end '/"], [b""],
]
NOTES = [
    [b"note left : %s"], [b"note right: a -> b"], [b"note over %s : text"], [b"note left of %s #aqua: text"],
    [b"hnote over %s : text"],
    [b"rnote right of %s : text"], [b"note across : text"], [b"note over %s", b"end", b"else", b"a -> b", b"end note"],
    [b"note left", b"a -> b : x", b"endnote"], [b"rnote over %s #red", b"text", b"endrnote"], [b"/ note over %s : beside"],
    [b"ref over %s : text"], [b"ref over %s", b"a -> b", b"end ref"], [b"ref over %s #red", b"text", b"end"],
]
LIVES = [
    b"activate %s", b"activate %s #red", b"deactivate %s", b"destroy %s", b"%s ++", b"%s--", b"%s++ #gold", b"deactivate",
]


def quoted(word: bytes) -> bytes:
    return b'"' + word + b'"'


class PlantumlPen(Pen):
    """Writes a diagram line by line, so that PlantUML takes each of them."""

    def __init__(self, draw: Draw):
        super().__init__(draw)
        self.parallel: list[bool] = []
        # Whether each arrow activates. Then there are no groups, and nothing else activates.
        self.is_automatic = draw.below(8) == 0
        self.box_is_open = False
        # How many activations a return may answer, and whether it may answer the arrow that stands last.
        self.activations = 0
        self.message_is_last = False

    def note_line(self, where: bytes, word: bytes, text: bytes) -> None:
        self.line(b"note %s %s : %s" % (where, word, text))

    def new_participant(self) -> None:
        draw, number = self.draw, len(self.words)
        word = draw.one_of([b"P%d", b"P%d", b"Node_%d", b"a.b%d", b"\xc3\xa4%d"]) % number
        label = self.any_label().replace(b'"', b"") or b"x"
        verb = self.keyword(draw.one_of(KINDS)) + b" "
        form = draw.below(7)
        if form == 0:
            stated = quoted(label) + b" as " + word
        elif form == 1:
            stated = word + b" as " + quoted(label)
        elif form == 2:
            stated = b"Long%d as " % number + word
        elif form == 3:
            stated = word = quoted(b"Node %d" % number)
        else:
            stated = word
            if word.startswith(b"P"):
                self.plain_words.append(word)
        self.words.append(word)
        self.line(verb + stated + draw.one_of(STEREOTYPES) + draw.one_of(COLOURS))

    def label(self) -> bytes:
        """A label behind a colon, or none."""
        if self.draw.below(12) == 0:
            return b""
        return self.draw.one_of([b" : ", b": ", b":", b" :\t"]) + self.any_label()

    def arrow(self) -> None:
        draw = self.draw
        # (where each arrow activates, a return would have to answer one of two heads too)
        sign = draw.one_of(RIGHT * 3 + LEFT * 3 + LOST + ([] if self.is_automatic else LEFT_OUT))
        one, other = self.two_words()
        blank = draw.one_of([b"", b" ", b"  "])
        row = draw.one_of([b""] * 12 + [b"& ", b"&", b"{here} "])
        is_plain = sign in RIGHT + LEFT
        behind = draw.one_of([self.activation() if is_plain else b""] * 10 + [b" #red", b" [[http://a.b]]"])
        self.count_activations(behind)
        stated = row + one + blank + sign + blank + other + behind + self.label()
        if draw.below(12) == 0:
            stated = draw.one_of([b"/' x '/ %s", b"%s /' a -> b '/"]) % stated
        self.continued(stated)
        # (PlantUML draws what answers a crossed arrow as one that is crossed too)
        self.message_is_last = is_plain

    def continued(self, stated: bytes) -> None:
        """Writes a line, seldom as two of which the first ends in a `\\`."""
        colon = stated.find(b":")
        if colon > 0 and b"http" not in stated and self.draw.below(15) == 0:
            self.line(stated[:colon + 1] + b"\\")
            stated = stated[colon + 1:]
        self.line(stated)

    def activation(self) -> bytes:
        """What may stand behind an arrow. Nothing does in a branch that is left out."""
        if any(self.left_out) or self.is_automatic:
            return b""
        return self.draw.one_of([b""] * 6 + [b" ++", b"++", b" --", b" !!", b" ++ #gold"])

    def count_activations(self, stated: bytes) -> None:
        if b"++" in stated or stated.startswith(b"activate"):
            self.activations += 1
        elif b"--" in stated or stated.startswith(b"deactivate"):
            self.activations = max(0, self.activations - 1)

    def edge(self) -> None:
        self.line(self.draw.one_of(EDGES) % self.draw.one_of(self.words) + self.label())
        self.message_is_last = False

    def creation(self) -> None:
        """A participant that is created, and the arrow that does it."""
        one, word = self.draw.one_of(self.words), b"New%d" % len(self.words)
        verb = self.draw.one_of([b"create", b"create actor", b"create participant", None])
        if verb is not None:
            self.line(self.keyword(verb) + b" " + word)
        self.words.append(word)
        self.line(one + b" -> " + word + (b" **" if verb is None else b"") + self.label())
        self.message_is_last = True

    def life(self) -> None:
        """An activation, behind an arrow of its own."""
        if any(self.left_out) or self.is_automatic:
            return
        one, other = self.two_words()
        self.line(one + b" -> " + other + self.label())
        stated = self.draw.one_of(LIVES)
        if (stated.startswith(b"%s") and other.startswith(b'"')) or (stated == b"deactivate" and not self.activations):
            stated = LIVES[0]
        verb, *rest = stated.split(b" ")
        words = b" ".join([self.keyword(verb)] + rest) if b"%s" not in verb else stated
        self.line(words % other if b"%s" in stated else words)
        self.count_activations(stated)
        self.message_is_last = True

    def give_back(self) -> None:
        if any(self.left_out) or not (self.activations or self.message_is_last):
            return
        self.line(self.keyword(b"return") + self.draw.one_of([b" ", b" #red "]) + self.any_label())
        self.activations = max(0, self.activations - 1)
        # (what is given back to the edge can't be answered)
        self.message_is_last = False

    def begin_group(self) -> None:
        if self.is_automatic:
            return
        word = self.draw.one_of(GROUPS)
        is_left_out = word == b"break" or any(self.left_out)
        self.left_out.append(is_left_out)
        self.line(self.keyword(word) + self.draw.one_of([b"", b" some case", b" [a guard]"]))
        self.parallel.append(word.startswith(b"par"))

    def next_branch(self) -> None:
        if not self.left_out:
            return
        outer = any(self.left_out[:-1])
        self.left_out[-1] = outer or not self.parallel[-1]
        self.line(self.keyword(self.draw.one_of([b"else", b"also", b"else #pink"])) + self.draw.one_of([b"", b" otherwise"]))

    def end_group(self) -> None:
        if self.left_out:
            self.left_out.pop()
            self.parallel.pop()
            self.line(self.keyword(b"end") + self.draw.one_of([b"", b"", b" alt"]))
            self.message_is_last = False

    def box(self) -> None:
        """A box begins or ends."""
        if self.box_is_open:
            self.line(self.draw.one_of([b"end box", b"endbox", b"End Box"]))
        else:
            self.line(self.draw.one_of([b"box", b'box "In a box" #LightBlue', b"box without quotes"]))
        self.box_is_open = not self.box_is_open

    def look(self) -> None:
        stated = self.draw.one_of(LOOKS)
        for line in stated:
            self.line(line)
        # (nothing but an arrow may stand behind a delay, before a participant is created)
        if b"..." in stated:
            self.arrow()

    def note(self) -> None:
        for stated in self.draw.one_of(NOTES):
            self.line(stated % self.draw.one_of(self.words) if b"%s" in stated else stated)


STEPS = (
    ["arrow"] * 16 + ["edge", "creation", "life", "life", "give_back", "give_back", "begin_group", "begin_group"]
    + ["next_branch", "end_group", "end_group", "box", "look", "look", "look", "note", "note"] + ["event_note"] * 6
    + ["new_participant"]
)


def drawn_plantuml(seed: int) -> bytes:
    """The diagram of a seed."""
    draw = Draw(seed)
    pen = PlantumlPen(draw)
    if draw.below(6) == 0:
        pen.line(b"text above the diagram")
    pen.line(draw.one_of([b"@startuml", b"@startuml", b"@startuml a name", b"@startuml(id=a)"]))
    if pen.is_automatic:
        pen.line(pen.keyword(b"autoactivate") + b" on")
    for _ in range(2 + draw.below(5)):
        pen.new_participant()
    # (it takes an arrow to show that a diagram is a sequence diagram)
    pen.arrow()
    for _ in range(draw.one_of([0, 4, 12, 30, 80])):
        getattr(pen, draw.one_of(STEPS))()
    while pen.left_out:
        pen.end_group()
    if pen.box_is_open:
        pen.box()
    pen.receive_all()
    pen.line(b"@enduml")
    if draw.below(6) == 0:
        for stated in (b"text below", b"@startuml", b"x -> y : z", b"@enduml"):
            pen.line(stated)
    return pen.text()

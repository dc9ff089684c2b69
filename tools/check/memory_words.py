"""Where a source writes that memory was refused without evidence (check_memory says what that is), and the functions
that do."""
import hashlib
import re

MEMORY = {"AllocError", "AllocFailed", "Memory", "OutOfMemory"}
CLAUSES = {"requires", "ensures", "invariant", "decreases"}
TOKEN = re.compile(
    r"""(?P<gap>\s+|//[^\n]*|/\*.*?\*/)
    |(?P<text>(?:b|r|br)?"(?:\\.|[^"\\])*"|b?r\#"(?:.|\n)*?"\#|b?'(?:\\[^']+|[^'\\])')
    |(?P<word>'?\w+)
    |(?P<sign>::|=>|->|==|!=|<=|>=|\|\||&&|.)""",
    re.X | re.S,
)
PAIRS = {"(": ")", "[": "]", "{": "}"}
# Calls that take memory, what in their arguments asks for more than a call needs, and the greatest number there.
GROWTHS = {"with_capacity", "reserve", "reserve_exact", "resize", "repeat"}
ENDLESS = {"MAX", "pow", "saturating_pow", "wrapping_pow", "wrapping_sub", "!"}
MOST_WRITTEN_OUT = 4096
BEFORE_CLOSURES = ("", ",", "=", "=>", "return", "move")


class Token:
    """A word, a sign or a text; or a group, which has what stands between two brackets."""

    def __init__(self, line, text, inside=None):
        self.line, self.text, self.inside = line, text, inside

    def is_block(self):
        return self.text == "{"


def tokens_in(text):
    """The tokens of a text, those between brackets as groups."""
    whole = []
    parts, line = [whole], 1
    for found in TOKEN.finditer(text):
        word = found[0]
        if not found["gap"]:
            if word in PAIRS:
                parts[-1].append(Token(line, word, []))
                parts.append(parts[-1][-1].inside)
            elif word in PAIRS.values():
                if len(parts) == 1:
                    raise ValueError(f"line {line}: a bracket closes that wasn't opened")
                parts.pop()
            else:
                parts[-1].append(Token(line, word))
        line += word.count("\n")
    if len(parts) > 1:
        raise ValueError("a bracket stays open")
    return whole


def parted(tokens, sign):
    """The tokens between signs of this kind."""
    parts = [[]]
    for token in tokens:
        if token.text == sign and token.inside is None:
            parts.append([])
        else:
            parts[-1].append(token)
    return [part for part in parts if part]


def says_memory(pattern, known):
    """Whether each alternative of a pattern has the name of an error that says memory. A name alone has to be known:
    else it is a variable, which takes any error."""
    ways = parted(pattern, "|")
    return bool(ways) and all(
        any(
            names_memory(way, at, known)
            or token.inside
            and any(says_memory(part, known) for part in parted(token.inside, ","))
            for at, token in enumerate(way)
        )
        for way in ways
    )


def names_memory(tokens, at, known):
    word = tokens[at].text
    return word in MEMORY and (word in known or text_at(tokens, at - 1) == "::")


def known_in(tokens):
    """The names that a file's `use` items bring, and those of the structs that it defines."""
    known, at = set(), 0
    while at < len(tokens):
        if tokens[at].text == "struct":
            known.add(text_at(tokens, at + 1))
        elif tokens[at].text == "use" and text_at(tokens, at - 1) != "ghost":
            end = Reading.behind_sign(tokens, at, ";")
            known.update(last_names(tokens[at + 1 : end - 1]))
            at = end - 1
        at += 1
    return known


def last_names(tokens):
    """Of a path, or of each in a group, its last name."""
    if tokens and tokens[-1].inside is not None:
        return {name for part in parted(tokens[-1].inside, ",") for name in last_names(part)}
    return {tokens[-1].text} if tokens else set()


def takes_memory(parameter, known):
    """Whether a closure's one parameter is of a type that says memory, as `_: AllocError`."""
    if len(parameter) < 3 or parameter[1].text != ":":
        return False
    at = 2
    while text_at(parameter, at + 1) == "::":
        at += 2
    return names_memory(parameter, at, known) and text_at(parameter, at + 1) in ("", "<")


def is_endless(arguments):
    """Whether what is asked for has no measure: the greatest number of a type, or one that is written out."""
    return any(
        token.text in ENDLESS
        or token.text.replace("_", "").isdigit() and int(token.text.replace("_", "")) > MOST_WRITTEN_OUT
        or token.inside is not None and is_endless(token.inside)
        for token in arguments
    )


def text_at(tokens, at):
    return tokens[at].text if 0 <= at < len(tokens) else ""


def is_for_tests(attribute):
    words = [token.text for token in attribute.inside]
    inner = [token.text for group in attribute.inside if group.inside is not None for token in group.inside]
    return words[:1] == ["test"] or words[:1] == ["cfg"] and inner == ["test"]


def flat(tokens):
    """The tokens as they stand in the source, with one space between two."""
    words = []
    for token in tokens:
        words.append(token.text)
        if token.inside is not None:
            words += [flat(token.inside), PAIRS[token.text]]
    return " ".join(words)


class Reading:
    """Goes over a file, and keeps the line of each expression without evidence by the function that it is in, and the
    bodies of these functions."""

    def __init__(self, known):
        self.found = []
        self.endless = []
        self.bodies = []
        self.known = known
        self.function = ""
        self.maps = False

    def note(self, token):
        self.found.append((self.function, token.line))

    def items(self, tokens, proved):
        """What stands in a file, a module, an impl, a body or between brackets."""
        at, for_tests = 0, False
        while at < len(tokens):
            token = tokens[at]
            word = token.text
            if word == "#":
                at += 2 if text_at(tokens, at + 1) == "!" else 1
                for_tests = for_tests or is_for_tests(tokens[at])
                at += 1
            elif for_tests:
                at, for_tests = self.behind_item(tokens, at), False
            else:
                at = self.item(tokens, at, proved)

    def behind_item(self, tokens, at):
        """Where an item ends: with its body, or at a semicolon."""
        while at < len(tokens):
            if tokens[at].text in CLAUSES:
                at = self.behind_clause(tokens, at)
            elif tokens[at].is_block() or tokens[at].text == ";":
                return at + 1
            else:
                at += 1
        return at

    @staticmethod
    def behind_clause(tokens, at):
        while at < len(tokens) and not tokens[at].is_block():
            at += 1
        return at + 1

    @staticmethod
    def behind_sign(tokens, at, *signs):
        while at < len(tokens) and tokens[at].text not in signs:
            at += 1
        return at + 1

    def item(self, tokens, at, proved):
        """One item or part of an expression: answers where the next one begins."""
        token = tokens[at]
        word = token.text
        if token.inside is not None:
            self.maps = text_at(tokens, at - 1) == "map_err"
            if text_at(tokens, at - 1) in GROWTHS and is_endless(token.inside):
                self.endless.append((self.function, token.line))
            self.items(token.inside, proved)
            return at + 1
        if word == "use":
            return self.names(tokens, at)
        if word == "ghost":
            return self.behind_sign(tokens, at, ";", ",")
        if word in CLAUSES:
            return self.behind_clause(tokens, at)
        if word in ("enum", "struct") and text_at(tokens, at - 1) != ".":
            return self.behind_item(tokens, at)
        if word == "type":
            return self.alias(tokens, at)
        if word == "fn" and re.match(r"\w", text_at(tokens, at + 1)):
            return self.body(tokens, at, proved)
        if word == "impl":
            return self.implementation(tokens, at, proved)
        if word == "match":
            return self.choice(tokens, at, proved)
        if word in ("if", "while"):
            return self.condition(tokens, at, proved)
        if word == "|" and text_at(tokens, at - 1) in BEFORE_CLOSURES:
            return self.closure(tokens, at, proved)
        if word in ("prove", "matches") and text_at(tokens, at + 1) == "!":
            return self.asked(tokens, at + 2, proved)
        if word in MEMORY and not proved and self.is_expression(tokens, at):
            self.note(token)
        return at + 1

    def names(self, tokens, at):
        """A `use`: it may not call such a name otherwise."""
        end = self.behind_sign(tokens, at, ";")
        waiting = tokens[at:end]
        while waiting:
            token = waiting.pop(0)
            if token.inside is not None:
                waiting = token.inside + waiting
            elif token.text in MEMORY and waiting and waiting[0].text == "as":
                self.note(token)
        return end

    def alias(self, tokens, at):
        """A type that is called otherwise: it may not be such an error itself."""
        end = self.behind_sign(tokens, at, ";")
        named = [token for token in tokens[at:end] if token.text not in (";", "")]
        if named and named[-1].text in MEMORY:
            self.note(named[-1])
        return end

    def body(self, tokens, at, proved):
        """A function: its head has no expression, and its clauses stand before its body."""
        before, self.function = self.function, text_at(tokens, at + 1)
        while at < len(tokens):
            if tokens[at].text in CLAUSES:
                at = self.behind_clause(tokens, at)
                continue
            if tokens[at].is_block():
                many = len(self.found)
                self.items(tokens[at].inside, proved)
                if many < len(self.found):
                    self.bodies.append((self.function, flat(tokens[at].inside)))
                break
            if tokens[at].text == ";":
                break
            at += 1
        self.function = before
        return at + 1

    def implementation(self, tokens, at, proved):
        head = []
        while at < len(tokens) and not tokens[at].is_block():
            head.append(tokens[at].text)
            at += 1
        if at < len(tokens):
            is_from = re.search(r"\bFrom < Alloc(Error >|Failed <)", " ".join(head).split(" for ")[0])
            self.items(tokens[at].inside, proved or bool(is_from))
        return at + 1

    def condition(self, tokens, at, proved):
        """An `if`: its first block has evidence if it looks for an error that says memory."""
        at += 1
        begin, says = at, False
        if text_at(tokens, at) == "let":
            begin = self.behind_sign(tokens, at, "=")
            says = says_memory(tokens[at + 1 : begin - 1], self.known)
        at = begin
        while at < len(tokens) and not tokens[at].is_block():
            at += 1
        self.items(tokens[begin:at], proved)
        if at < len(tokens):
            self.items(tokens[at].inside, proved or says)
        return at + 1

    def closure(self, tokens, at, proved):
        """A closure that is handed to `map_err`, alone between brackets, has evidence if the type of that error says
        memory."""
        end = self.behind_sign(tokens, at + 1, "|")
        if at == 0 and self.maps:
            says = takes_memory(tokens[1 : end - 1], self.known)
            self.items(tokens[end:], proved or says)
            return len(tokens)
        return end

    def choice(self, tokens, at, proved):
        """A `match`: what is looked at, and its arms."""
        at += 1
        begin = at
        while at < len(tokens) and not tokens[at].is_block():
            # (a block of what is looked at)
            if tokens[at].text in ("if", "match", "unsafe"):
                at = self.behind_block(tokens, at)
            else:
                at += 1
        self.items(tokens[begin:at], proved)
        if at < len(tokens):
            self.arms(tokens[at].inside, proved)
        return at + 1

    @staticmethod
    def behind_block(tokens, at):
        while at < len(tokens):
            while at < len(tokens) and not tokens[at].is_block():
                at += 1
            at += 1
            if text_at(tokens, at) != "else":
                break
        return at

    def arms(self, tokens, proved):
        at = 0
        while at < len(tokens):
            end = self.behind_sign(tokens, at, "=>")
            pattern, guard = self.guarded(tokens[at : end - 1])
            self.items(guard, proved)
            at = end
            if at < len(tokens) and tokens[at].is_block():
                end = at + 1
            else:
                end = self.behind_sign(tokens, at, ",") - 1
            self.items(tokens[at:end], proved or says_memory(pattern, self.known))
            at = end + (text_at(tokens, end) == ",")

    @staticmethod
    def guarded(tokens):
        for at, token in enumerate(tokens):
            if token.text == "if":
                return tokens[:at], tokens[at:]
        return tokens, []

    def asked(self, tokens, at, proved):
        """A macro that asks: what it compares with is a pattern, and what is to be proved isn't run."""
        if text_at(tokens, at - 2) == "matches" and at < len(tokens) and tokens[at].inside:
            self.items(parted(tokens[at].inside, ",")[0], proved)
        return at + 1

    @staticmethod
    def is_expression(tokens, at):
        """Whether such a name makes a value: no type, no field and no definition."""
        first = at
        while text_at(tokens, first - 1) == "::":
            first -= 2
        before, behind = text_at(tokens, first - 1), text_at(tokens, at + 1)
        if behind in (">", "<") or before in ("<", "->", ".", "dyn", "mod"):
            return False
        return not (before == ":" and behind == "|")


def found_in(text):
    """Of each expression of a file without evidence the function and the line; the functions and lines that ask for
    memory without measure; and of each function with such an expression a digest of its body."""
    tokens = tokens_in(text)
    reading = Reading(known_in(tokens))
    reading.items(tokens, False)
    bodies = {}
    for function, body in reading.bodies:
        bodies.setdefault(function, []).append(body)
    digests = {function: hashlib.sha256("\n".join(them).encode()).hexdigest()[:8] for function, them in bodies.items()}
    return reading.found, reading.endless, digests

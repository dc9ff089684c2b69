"""The sentences of a document, without its code: of Markdown, of a manual page, and of the comments of a C header.

A heading, an item of a list, a cell of a table and the alternative text of a picture end their sentences. Code within a
sentence is one word.
"""
import re

# What stands in a sentence for code. It begins with a capital letter, since a sentence may begin with code.
CODE = "Code"
SPAN = re.compile(r"(`+).+?\1")
LINK = re.compile(r"!?\[([^\]]*)\]\([^)]*\)")
ITEM = re.compile(r"\s*(?:[-*+]|\d+\.)\s+")
BETWEEN = re.compile(r"""(?:(?<=[.!?])|(?<=[.!?][)"'*]))(?<!\.\.)\s+(?=[("'*]*[A-Z0-9])""")
COMMENT = re.compile(r"/\*+(.*?)\*+/", re.DOTALL)
# Macros of manual pages: those whose words are code, those that part paragraphs and have words of their own, and those
# between which nothing is a sentence.
CODE_MACROS = {"Nm", "Cm", "Ar", "Fl", "Li", "Ql", "Xr", "Op", "B", "I", "BR", "IR", "BI", "RB", "IB", "RI"}
HEAD_MACROS = {"Nd", "SH", "Sh", "Ss", "SS"}
HIDING_MACROS = {"Xo": "Xc", "Bd": "Ed", "nf": "fi", "EX": "EE"}


def paragraphs_of_markdown(text):
    """Its paragraphs without blocks of code, each in one line."""
    inside, lines = False, []
    for line in [*text.split("\n"), ""]:
        is_fence = line.lstrip().startswith("```")
        inside ^= is_fence
        bare = SPAN.sub(CODE, line.lstrip("> "))
        is_alone = not bare.strip() or bare.startswith(("#", "|", "<!--")) or ITEM.match(line)
        if is_fence or is_alone:
            yield " ".join(lines)
            lines = []
        if inside or is_fence or bare.startswith("<!--"):
            continue
        if bare.startswith("|"):
            yield from (cell for cell in bare.split("|") if cell.strip(" :-"))
        elif bare.startswith("#"):
            yield bare.lstrip("# ")
        else:
            item = ITEM.match(bare)
            lines.append(bare[item.end() :] if item else bare)
    yield " ".join(lines)


def without_links(text):
    """A text with the words of its links alone, of which a path is code."""
    return LINK.sub(lambda found: found[1] if " " in found[1] else CODE, text)


def words_of_macro(words):
    """What stands for a macro's words: one word of code between punctuation."""
    parts = []
    for word in words:
        if re.fullmatch(r"[.,;:!?)(|]+", word) and parts:
            parts[-1] += word
        elif not parts or parts[-1] != CODE:
            parts.append(CODE)
    return " ".join(parts) or CODE


def paragraphs_of_page(text):
    """The paragraphs of a manual page, without its synopsis and what it displays as it is typed."""
    lines, until, section = [], None, ""
    for line in text.split("\n"):
        macro, *words = re.sub(r'^\.\s*|"', "", line).split() or [""]
        if not line.startswith("."):
            if until is None and section != "SYNOPSIS":
                lines.append(re.sub(r"\\f[BIRP]|\\&", "", line))
            continue
        if macro == until:
            until = None
        elif until is None:
            until = HIDING_MACROS.get(macro)
            if macro in CODE_MACROS and section != "SYNOPSIS":
                lines.append(words_of_macro(words))
            elif macro not in CODE_MACROS:
                yield " ".join(lines)
                lines = []
                yield " ".join(words) if macro in HEAD_MACROS else ""
        if macro in ("Sh", "SH"):
            section = " ".join(words)
    yield " ".join(lines)


def paragraphs_of_header(text):
    """The paragraphs of a C header's comments."""
    for found in COMMENT.finditer(text):
        lines = [re.sub(r"^\s*\*? ?", "", line) for line in found[1].split("\n")]
        yield from paragraphs_of_markdown("\n".join(lines))


def sentences_of(path, text):
    """The sentences of a document, whose kind its ending says."""
    if path.endswith(".h"):
        paragraphs = paragraphs_of_header(text)
    else:
        paragraphs = paragraphs_of_markdown(text) if path.endswith(".md") else paragraphs_of_page(text)
    for paragraph in paragraphs:
        yield from filter(None, BETWEEN.split(without_links(paragraph).strip()))


def words_in(sentence):
    """How many words a sentence has: what has no letter and no digit is none."""
    return sum(any(letter.isalnum() for letter in word) for word in sentence.split())

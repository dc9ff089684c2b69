r"""Reads and writes the cases of cases/: each is a run of a program, in a text of its own, cases/PROGRAM/COMMAND/NAME.case.

A case is UTF-8. It has sections, each a head and its lines. A head is a name with a colon behind it, a line of a section
stands behind a bar, and an empty line stands between two sections:

    command:
    |mscrun replay FILE

    input, unended:
    |instances a b
    |capacity 1

    stdout:

    stderr:
    |refused: F21 Unfinished

    status:
    |2

The sections, in this order:
    command       the program and its words. FILE stands for the file `input`, FILE2 for `input2`
    input         the file that it reads
    input2        the second one, where there is one
    stdout, stderr, status   what has to come
    may_spend     without lines, where threads of the run may spend their turns before they have come so far
    many_growths  without lines, where memory grows so often that only each 97th growth is refused
A head may have one of these words behind the name, or both of the first two:
    escaped  what can't be seen, or not at a line's end, is written as \t, \r or, byte by byte, as \xHH, and \ as \\;
             \FILE is the name of the file `input`, wherever the case is run
    unended  no line feed stands behind the last line
    beside   the bytes are those of the file NAME.SECTION beside the case: more than 20,000, or what documents name
A case has one text: one that says the same in another form is refused, and so is what is missing, doubled or unknown.
The folder COMMAND is named by the first word, but for no_command, where that is none.
"""

import itertools
import pathlib
import re

ROOT = pathlib.Path(__file__).resolve().parents[2]
REQUIRED = ("command", "input", "stdout", "stderr", "status")
FLAGS = ("may_spend", "many_growths")
NAMES = ("command", "input", "input2", "stdout", "stderr", "status", *FLAGS)
MOST = 20_000
HEAD = re.compile("([a-z_0-9]+)(, escaped)?(, unended)?(, beside)?:")
# In the place of the name of the file: nothing that is decoded has it.
FILE = "\ud800"
# Control characters, bytes that are no UTF-8, blanks and marks of no width or another one, and a blank at the end.
UNSEEN = re.compile(f"[\0-\x1f\x7f-\xa0\xad\u200b-\u200f\u2028-\u202e\u2060-\u2069\ufeff\udc80-\udcff{FILE}]| $")
ESCAPED = re.compile(rb"\\(x[0-9a-f]{2}|FILE|.?)")
SHORT = {"\t": r"\t", "\r": r"\r", FILE: r"\FILE"}
MEANT = {b"\\": b"\\", b"t": b"\t", b"r": b"\r"}


class Fault(Exception):
    """What is wrong with a case."""


def escaped(line):
    def escape(found):
        return SHORT.get(found[0]) or "".join(f"\\x{byte:02x}" for byte in found[0].encode("utf-8", "surrogateescape"))

    return UNSEEN.sub(escape, line.replace("\\", r"\\"))


def unescaped(content, file):
    # (what is no escape goes, and then the case has another form)
    def unescape(found):
        return file if found[1] == b"FILE" else MEANT.get(found[1]) or bytes.fromhex(found[1][1:].decode())

    return ESCAPED.sub(unescape, content)


def file_in(folder):
    """The name of the file of a case that lies unpacked in a folder."""
    return bytes(folder / "input")


def section_text(name, content, is_beside, file):
    """A section as it stands in a case."""
    if is_beside or len(content) > MOST:
        return f"{name}, beside:\n"
    is_unended = content[-1:] not in (b"", b"\n")
    text, named = (it.decode("utf-8", "surrogateescape") for it in (content, file))
    lines = text.replace(named, FILE).split("\n")
    lines = lines if is_unended else lines[:-1]
    is_escaped = any(map(UNSEEN.search, lines))
    lines = map(escaped, lines) if is_escaped else lines
    head = name + ", escaped" * is_escaped + ", unended" * is_unended
    return f"{head}:\n" + "".join(f"|{line}\n" for line in lines)


def case_text(sections, beside, folder):
    """The one text of these sections, of which some are to lie beside it, and all of them unpacked in the folder."""
    file = file_in(folder)
    return "\n".join(section_text(name, sections[name], name in beside, file) for name in NAMES if name in sections)


def file_beside(path, name):
    return path.with_suffix(f".{name}")


def content_of(path, folder, head, lines):
    """The bytes of a section of a case, by its head and its lines."""
    name, is_escaped, is_unended, is_beside = head.groups()
    if is_beside:
        return file_beside(path, name).read_bytes()
    content = "\n".join(lines).encode()
    content = unescaped(content, file_in(folder)) if is_escaped else content
    return content if is_unended or not lines else content + b"\n"


def heads_and_lines(text):
    """The head of each section, as it is found, and its lines."""
    found = []
    for number, line in enumerate(text.split("\n"), 1):
        head = HEAD.fullmatch(line)
        if head and head[1] in NAMES:
            found.append((head, []))
        elif line.startswith("|") and found:
            found[-1][1].append(line[1:])
        elif line:
            raise Fault(f"line {number} is in no section: {line}")
    return found


def read_sections(path, folder):
    """The sections that a text has, as they are unpacked in a folder, and the names of those that lie beside it."""
    found = heads_and_lines(path.read_bytes().decode())
    sections = {head[1]: content_of(path, folder, head, lines) for head, lines in found}
    if len(sections) < len(found):
        raise Fault("a section is doubled")
    return sections, {head[1] for head, _ in found if head[4]}


def look_at_words(path, sections):
    """Whether a case has one command, and lies where it belongs."""
    line = sections["command"].decode()
    if line.count("\n") != 1 or line.count(" ") < 1:
        raise Fault("the command isn't one line of a program and its words")
    program, command = line.rstrip("\n").split(" ")[:2]
    if path.parent.parent.name != program or path.parent.name not in (command, "no_command"):
        raise Fault(f"it doesn't lie in the folder of {program} {command}")


def read_case(path, folder):
    """The sections of a case, as they are unpacked in a folder, and the names of those that lie beside it."""
    sections, beside = read_sections(path, folder)
    for name in REQUIRED:
        if name not in sections:
            raise Fault(f"{name} is missing")
    for name in FLAGS:
        if sections.get(name):
            raise Fault(f"{name} has lines")
    lines = itertools.zip_longest(path.read_bytes().decode().split("\n"), case_text(sections, beside, folder).split("\n"))
    for number, (line, wanted) in enumerate(lines, 1):
        if line != wanted:
            raise Fault(f"line {number} has another form than tools/test/write_case gives it: {line}")
    look_at_words(path, sections)
    return sections, beside


def unpack(sections, folder):
    """Writes a case as files: one for each section, but for the command `args` and, where it isn't mscrun, `program`."""
    program, args = sections["command"].split(b" ", 1)
    files = {name: content for name, content in sections.items() if name != "command"}
    files["args"] = args
    if program != b"mscrun":
        files["program"] = program + b"\n"
    folder.mkdir(parents=True)
    for name, content in files.items():
        (folder / name).write_bytes(content)

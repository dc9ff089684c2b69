"""Names and refusals, line by line from docs/reference/charts.md and refusals.md."""

RESERVED = {
    b"msc", b"endmsc", b"instance", b"endinstance", b"out", b"to", b"in", b"from", b"concurrent", b"endconcurrent",
}
LONGEST_NAME = 32
LETTERS = b"ABCDEFGHIJKLMNOPQRSTUVWXYZabcdefghijklmnopqrstuvwxyz"
LATER_BYTES = LETTERS + b"0123456789_"

REFUSALS = {
    "F2": "NameTooLong", "F3": "NameBadByte", "F4": "NameReserved", "F7": "LineFull", "F8": "Instances",
    "F9": "Capacity", "F13": "ToItself", "F16": "ReceiveWithoutSend", "F17": "NameMismatch", "F18": "Cyclic",
    "F20": "Syntax", "F21": "Unfinished", "F22": "Duplicate", "F23": "UnknownInstance",
    "F34": "NoSuchName", "F35": "NotRead", "F37": "NotPossible", "F38": "NotALog", "F39": "BadPattern",
    "F51": "NoReceive", "F52": "OneEnd",
}


class Refused(Exception):
    """A refusal: its number and its details, and behind its line what is reported of its cause."""

    def __init__(self, number, *details, behind=()):
        super().__init__(number)
        words = [number, REFUSALS[number]] + [d.decode() if isinstance(d, bytes) else str(d) for d in details]
        self.text = "".join(line + "\n" for line in ["refused: " + " ".join(words), *behind]).encode()


def check_name(word, line):
    """Refuses a word of a line that is no name. (A text's words have a byte at least, so F1 never comes.)"""
    if len(word) > LONGEST_NAME:
        raise Refused("F2", line)
    for number, byte in enumerate(word, 1):
        if byte not in (LETTERS if number == 1 else LATER_BYTES):
            raise Refused("F3", line, number)
    if word in RESERVED:
        raise Refused("F4", line)


def whole_lines(text):
    """The lines that a line feed ends, and what follows the last line feed."""
    *lines, rest = text.split(b"\n")
    return lines, rest

"""Names for the labels of a diagram: what a label is spelled as, and names that never collide."""

import re

from names import LETTERS, LONGEST_NAME, RESERVED

OTHERS = re.compile(rb"[^A-Za-z0-9_]+")


def spelled(label: bytes) -> bytes:
    """What a label is spelled as where a name has to stand."""
    words = b"_".join(word for word in OTHERS.split(label) if word)
    if not words or words[0] not in LETTERS:
        words = b"n_" + words
    if words in RESERVED:
        words += b"_"
    if len(words) > LONGEST_NAME:
        words = words[:15] + b"__" + words[-15:]
    return words


def printable(text: bytes) -> bytes:
    """Bytes as they are shown: `?` for what doesn't print."""
    return bytes(byte if 32 <= byte <= 126 else 63 for byte in text)


def shown(label: bytes) -> bytes:
    """A label as it is reported, with `\\n` for a new line."""
    return b"\\n".join(printable(line) for line in label.split(b"\n"))


class GivenNames:
    """Labels with their names, in the order in which they came."""

    def __init__(self) -> None:
        self.names: dict[bytes, bytes] = {}
        self.taken: set[bytes] = set()

    def name(self, label: bytes) -> bytes:
        """The name of a label, wherever it stands."""
        if label not in self.names:
            self.names[label] = self.new_name(label)
        return self.names[label]

    def new_name(self, label: bytes) -> bytes:
        """
        A name that wasn't given yet: what the label is spelled as, or where that is taken, it with the least number
        from 2 on that makes it free.
        """
        word = spelled(label)
        number, name = 1, word
        while name in self.taken:
            number += 1
            suffix = b"_%d" % number
            name = word[:LONGEST_NAME - len(suffix)] + suffix
        self.taken.add(name)
        return name

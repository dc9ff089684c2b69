"""The tool of a diagram, by the first word of its text that stands in no comment."""

import re

from diagram_lines import Line
from diagram_readings import NotRead, Unfinished

# Blanks and the comments of all tools. A block without its end goes to the text's end.
PASSED = re.compile(
    rb"(?:[ \t\r\n]|/\*.*?(?:\*/|\Z)|/'.*?(?:'/|\Z)|%%\{.*?(?:\}%%|\Z)|(?:#|//|'|%%)[^\n]*)*", re.DOTALL
)
FIRST_WORDS = {
    "mscgen": re.compile(rb"msc(?![A-Za-z0-9_])"),
    "plantuml": re.compile(rb"@startuml(?![A-Za-z0-9_])"),
    "mermaid": re.compile(rb"(?i:sequenceDiagram)(?![A-Za-z0-9_])|---[ \t\r]*(?=\n|\Z)"),
}


def detected_tool(text: bytes) -> str:
    """The tool that a text names, or `NotRead` or `Unfinished`."""
    begin = PASSED.match(text).end()
    for tool, word in FIRST_WORDS.items():
        if word.match(text, begin):
            return tool
    if begin == len(text):
        raise Unfinished
    raise NotRead(Line(text.count(b"\n", 0, begin) + 1, begin - text.rfind(b"\n", 0, begin), b""))

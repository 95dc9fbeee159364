"""The texts that an editor has open, and places in them: lines from 0 and columns in units of UTF-16, as the protocol
counts them."""
import os
from dataclasses import dataclass
from enum import Enum
from typing import Any, Dict, List, NamedTuple, Optional, Tuple
from urllib.parse import quote, unquote, urlsplit

Json = Dict[str, Any]


class Kind(Enum):
    """What a text is."""

    SCRIPT = "script"
    LINES = "lines"
    STACK = "stack"
    LAYOUT = "layout"


ENDINGS = {".script": Kind.SCRIPT, ".lines": Kind.LINES, ".stack": Kind.STACK, ".xml": Kind.LAYOUT}


def units(text: str) -> int:
    """How many units of UTF-16 a text has."""
    return len(text) + sum(it > "\uffff" for it in text)


def characters(text: str, column: int) -> int:
    """How many characters of a line are before a column in units; one within a character counts as before it."""
    count = 0
    for place, it in enumerate(text):
        count += 2 if it > "\uffff" else 1
        if count > column:
            return place
    return len(text)


class Span(NamedTuple):
    """A part of a line: the number of the line from 0, and the first character and the one after the last."""

    line: int
    start: int
    end: int


@dataclass
class Text:
    """A text: where it is, what it is, its version, and its lines without their ends."""

    uri: str
    kind: Kind
    version: Optional[int]
    whole: str

    def __post_init__(self) -> None:
        self.lines: List[str] = [it[:-1] if it.endswith("\r") else it for it in self.whole.split("\n")]
        self.path = path_of(self.uri)
        self.folder = os.path.dirname(self.path) or os.getcwd()

    def line(self, number: int) -> str:
        """A line; an empty one beyond the end."""
        return self.lines[number] if 0 <= number < len(self.lines) else ""

    def range(self, span: Span) -> Json:
        """A part of a line as the protocol has it."""
        line = self.line(span.line)
        return range_of(span.line, units(line[: span.start]), units(line[: span.end]))

    def place(self, position: Json) -> Tuple[int, int]:
        """The line and the character of a position."""
        number = int(position["line"])
        return number, characters(self.line(number), int(position["character"]))


def range_of(line: int, start: int, end: int) -> Json:
    """A range within a line, in units."""
    return {"start": {"line": line, "character": start}, "end": {"line": line, "character": end}}


def path_of(uri: str) -> str:
    """The path of an address; nothing where it is of no file."""
    parts = urlsplit(uri)
    return unquote(parts.path) if parts.scheme == "file" else ""


def uri_of(path: str) -> str:
    """The address of a file."""
    return "file://" + quote(os.path.abspath(path))


def kind_of(uri: str) -> Optional[Kind]:
    """What a text is, by the ending of its name."""
    return ENDINGS.get(os.path.splitext(urlsplit(uri).path)[1].lower())


def location(path: str, line: int, start: int = 0, end: int = 0) -> Json:
    """A place in a file, whose line is from 1."""
    return {"uri": uri_of(path), "range": range_of(line - 1, start, end)}

"""A strict reader of the part of TOML that files of these tools need.

It reads keys, tables of one name, strings on one line, whole numbers, `true` and `false`, and arrays; what it takes is
TOML 1.0 and means the same there. Anything else, also what TOML has more of, is a failure that names file, line and
column. Python has a reader of its own only from 3.11 on.
"""
import re
from typing import Dict, List, NamedTuple, Tuple, Union

from .failures import Failure, NOT_RUN

BLANK = re.compile(r"[ \t]*")
COMMENT = re.compile(r"#[^\n]*")
KEY = re.compile(r"[A-Za-z0-9_-]+")
WHOLE = re.compile(r"[+-]?(?:0|[1-9](?:_?[0-9])*)(?![0-9A-Za-z_.:+-])")
WORD = re.compile(r"(?:true|false)(?![0-9A-Za-z_-])")
LITERAL = re.compile(r"'([^'\n]*)'")
BASIC = re.compile(r'"((?:[^"\\\n]|\\.)*)"')
ESCAPE = re.compile(r"\\(u[0-9A-Fa-f]{4}|U[0-9A-Fa-f]{8}|.)", re.DOTALL)
PLAIN = {"b": "\b", "t": "\t", "n": "\n", "f": "\f", "r": "\r", '"': '"', "\\": "\\"}
# what no file of TOML has
CONTROL = re.compile("[\0-\x08\x0b-\x1f\x7f]")
LARGEST = (1 << 63) - 1
MAX_DEPTH = 16

# strictly: a list of values, to any depth
Value = Union[str, int, bool, List[object]]


class Entry(NamedTuple):
    """A value, and the line of its key, from 1."""

    value: Value
    line: int


class Table(NamedTuple):
    """A table: its name, which the first one has not; the line that begins it; and its entries."""

    name: str
    line: int
    entries: Dict[str, Entry]


class Reader:
    """Reads a file."""

    def __init__(self, text: str, file: str):
        self.text = text
        self.file = file
        self.at = 0

    def failure(self, why: str) -> Failure:
        """What is wrong at the place that is read."""
        line = self.text.count("\n", 0, self.at) + 1
        column = self.at - (self.text.rfind("\n", 0, self.at) + 1) + 1
        return Failure("%s:%d:%d: %s" % (self.file, line, column, why), NOT_RUN)

    def line(self) -> int:
        """The line that is read, from 1."""
        return self.text.count("\n", 0, self.at) + 1

    def take(self, pattern: "re.Pattern[str]") -> str:
        """What fits a pattern at this place, which is passed; nothing where it does not fit."""
        found = pattern.match(self.text, self.at)
        self.at = found.end() if found else self.at
        return found[0] if found else ""

    def next(self) -> str:
        """The next character; nothing at the end."""
        return self.text[self.at : self.at + 1]

    def expect(self, character: str) -> None:
        """Takes a character that has to be there."""
        if self.next() != character:
            raise self.failure("'%s' is expected" % character)
        self.at += 1

    def end_of_line(self) -> None:
        """Takes what may follow a value or a table in its line."""
        self.take(BLANK)
        self.take(COMMENT)
        if self.next():
            if self.next() != "\n":
                raise self.failure("nothing more is expected in this line")
            self.at += 1

    def blank(self) -> None:
        """Takes blank lines and comments."""
        before = -1
        while before != self.at:
            before = self.at
            self.take(BLANK)
            self.take(COMMENT)
            self.at += self.next() == "\n"

    def key(self) -> str:
        """A key or the name of a table."""
        first = self.next()
        found = self.string() if first in ("'", '"') and first else self.take(KEY)
        if first not in ("'", '"') and not found:
            raise self.failure("a name is expected")
        self.take(BLANK)
        if self.next() == ".":
            raise self.failure("names joined by dots are not read here")
        return found

    def string(self) -> str:
        """A string."""
        for mark, pattern in (("'", LITERAL), ('"', BASIC)):
            if self.next() == mark:
                if self.text.startswith(mark * 3, self.at):
                    raise self.failure("a string of several lines is not read here")
                found = pattern.match(self.text, self.at)
                if not found:
                    raise self.failure("the string does not end in this line")
                text = found[1] if mark == "'" else ESCAPE.sub(self.escaped, found[1])
                self.at = found.end()
                return text
        raise self.failure("a string is expected")

    def escaped(self, found: "re.Match[str]") -> str:
        """The character of an escape."""
        if found[1] in PLAIN:
            return PLAIN[found[1]]
        number = int(found[1][1:], 16) if len(found[1]) > 1 else -1
        if not (0 <= number < 0xD800 or 0xE000 <= number < 0x110000):
            raise self.failure("the string has an unknown escape: \\%s" % found[1])
        return chr(number)

    def value(self, depth: int = 0) -> Value:
        """A value."""
        first = self.next()
        if first and first in "'\"":
            return self.string()
        if first == "[":
            return self.array(depth + 1)
        word = self.take(WORD)
        if word:
            return word == "true"
        whole = self.take(WHOLE)
        if not whole:
            raise self.failure("a string in quotation marks, a whole number, true, false or an array is expected")
        number = int(whole[:32].replace("_", ""))
        if not -LARGEST - 1 <= number <= LARGEST or len(whole) > 32:
            raise self.failure("the number is too large")
        return number

    def array(self, depth: int) -> List[object]:
        """An array."""
        if depth > MAX_DEPTH:
            raise self.failure("arrays are more than %d deep" % MAX_DEPTH)
        self.at += 1
        found: List[object] = []
        self.blank()
        while self.next() != "]":
            found.append(self.value(depth))
            self.blank()
            if self.next() != "]":
                self.expect(",")
                self.blank()
        self.at += 1
        return found

    def header(self) -> Tuple[str, int]:
        """The name of a table, and its line."""
        line = self.line()
        self.at += 1
        if self.next() == "[":
            raise self.failure("an array of tables is not read here")
        self.take(BLANK)
        name = self.key()
        self.expect("]")
        self.end_of_line()
        return name, line

    def tables(self) -> List[Table]:
        """All tables."""
        found = [Table("", 0, {})]
        taken: Dict[str, int] = {}
        self.blank()
        while self.next():
            begun = self.at
            if self.next() == "[":
                name, line = self.header()
                self.once(name in taken, begun, name)
                taken[name] = line
                found.append(Table(name, line, {}))
            else:
                line = self.line()
                name = self.key()
                self.once(name in found[-1].entries, begun, name)
                self.expect("=")
                self.take(BLANK)
                found[-1].entries[name] = Entry(self.value(), line)
                self.end_of_line()
                if len(found) == 1:
                    taken[name] = line
            self.blank()
        return found

    def once(self, is_taken: bool, begun: int, name: str) -> None:
        """A name that is there already is a failure."""
        if is_taken:
            self.at = begun
            raise self.failure("'%s' is there already" % name)


def read(body: bytes, file: str) -> List[Table]:
    """The tables of a file; the first one has no name, and what is before any table."""
    try:
        text = body.decode().replace("\r\n", "\n")
    except UnicodeDecodeError as error:
        raise Failure("%s:%d: this is no UTF-8" % (file, body.count(b"\n", 0, error.start) + 1), NOT_RUN)
    reader = Reader(text, file)
    found = CONTROL.search(text)
    if found:
        reader.at = found.start()
        raise reader.failure("a control character is not allowed here")
    return reader.tables()



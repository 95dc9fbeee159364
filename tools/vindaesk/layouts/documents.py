"""A document of compiled XML as a list of nodes, from the lines that `dump` writes of it."""
import os
import re
import tempfile
from typing import Dict, Iterator, List, NamedTuple, Optional, Tuple, Union

from ..common.failures import Failure, NOT_RUN
from ..common.messages import shown
from ..program import process

ANDROID = "http://schemas.android.com/apk/res/android"
ESCAPE = re.compile(r'\\(n|\\|"|x[0-9a-f]{2})')
PLAIN = {"n": "\n", "\\": "\\", '"': '"'}
# the types of values
NULL, REFERENCE, THEME, STRING, FLOAT, DIMENSION, FRACTION = range(7)
WHOLE, HEXADECIMAL, BOOLEAN = 0x10, 0x11, 0x12
COLOURS = range(0x1C, 0x20)


class Value(NamedTuple):
    """The value of an attribute: its type and its word; or of a string its text, and no word."""

    kind: int
    word: int
    text: Optional[str] = None


class Attribute(NamedTuple):
    """An attribute; its namespace is empty where it has none, and raw its text in the source, where that is kept."""

    namespace: str
    name: str
    value: Value
    raw: Optional[str] = None


class Namespace(NamedTuple):
    """A namespace that begins, or one that ends."""

    prefix: str
    address: str
    begins: bool


class Start(NamedTuple):
    """An element that begins, in a line of the source."""

    line: int
    namespace: str
    name: str
    attributes: List[Attribute]


class End(NamedTuple):
    """An element that ends, with the line that is noted of that."""

    line: int
    namespace: str
    name: str


class Text(NamedTuple):
    """Character data."""

    line: int
    text: str


Node = Union[Namespace, Start, End, Text]


def unescaped(text: str) -> str:
    """A string as it is in the file."""
    return ESCAPE.sub(lambda it: PLAIN.get(it[1]) or chr(int(it[1][1:], 16)), text)


def number_in(digits: str, base: int = 10) -> int:
    """A number of 32 bits. No dump has a greater one."""
    found = int(digits, base)
    if not 0 <= found < 1 << 32:
        raise ValueError("'%s' has more than 32 bits" % digits)
    return found


def attribute_of(words: List[str], strings: Dict[str, str]) -> Attribute:
    """The attribute of a line `attr`."""
    kind, word = number_in(words[4], 16), number_in(words[5], 16)
    value = Value(STRING, 0, strings["s%d" % word]) if kind == STRING else Value(kind, word)
    return Attribute(strings.get(words[1], ""), strings[words[2]], value, strings.get(words[3]))


def nodes_in(lines: List[str]) -> Iterator[Node]:
    """The nodes in order, from the lines of a dump."""
    strings: Dict[str, str] = {}
    for number, line in enumerate(lines):
        first, *words = line.split(" ")
        if first in ("ns", "endns"):
            yield Namespace(strings.get(words[0], ""), strings.get(words[1], ""), first == "ns")
        elif first == "start":
            rows = lines[number + 1 : number + 1 + int(words[3])]
            attributes = [attribute_of(["attr", *row.split(" ")[1:]], strings) for row in rows]
            yield Start(number_in(words[0]), strings.get(words[1], ""), strings[words[2]], attributes)
        elif first == "end":
            yield End(number_in(words[0]), strings.get(words[1], ""), strings[words[2]])
        elif first == "text":
            yield Text(number_in(words[0]), strings.get(words[1], ""))
        elif first[:1] == "s":
            strings[first] = unescaped(line[len(first) + 2 : -1])


def printed(name: str, folder: str) -> Tuple[Optional[List[str]], str]:
    """The lines that `dump` writes of the file of this name; or nothing, and how it is refused."""
    written, status = process.ran(["dump", name], b"", folder)
    if status == 1:
        return None, shown(written.rstrip(b"\n")[len(b"file: ") :])
    if status:
        raise process.failed(status)
    return written.decode().split("\n")[:-1], ""


def of_file(file: bytes, name: str) -> List[Node]:
    """The nodes of a file; one that is refused is a failure that names it."""
    with tempfile.TemporaryDirectory() as folder:
        with open(os.path.join(folder, "file.xml"), "wb") as copy:
            copy.write(file)
        lines, why = printed("file.xml", folder)
    if lines is None:
        raise Failure("%s is no compiled layout that can be read: %s" % (name, why), NOT_RUN)
    return list(nodes_in(lines))


def starts(nodes: List[Node]) -> List[Start]:
    """The elements in the order in which they begin."""
    return [node for node in nodes if isinstance(node, Start)]

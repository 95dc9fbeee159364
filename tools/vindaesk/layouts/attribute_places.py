"""Where the values of attributes are in the text of a source, byte for byte."""
import re
from dataclasses import dataclass
from typing import Dict, List, Optional, Tuple
from xml.parsers import expat

TAG = re.compile(rb"<[^\s/>]+")
ATTRIBUTE = re.compile(rb"\s+([^\s=]+)\s*=\s*(\"[^\"]*\"|'[^']*')")
PLAIN_ENCODINGS = (None, "utf-8", "us-ascii")


@dataclass(frozen=True)
class Spot:
    """A value: what it is of, as `android:text` or `padding`; its text; its file and line; its first byte and the one
    after its last; and the quotation mark around it, nothing in a line of a script."""

    name: str
    text: str
    file: str
    line: int
    start: int
    end: int
    quote: str = ""


class Source:
    """Finds the values of a source: those of each element, by its line and column."""

    def __init__(self, body: bytes, path: str):
        self.body, self.path = body, path
        self.found: Dict[Tuple[int, int], List[Spot]] = {}
        self.encoding: Optional[str] = None
        self.parser = parser = expat.ParserCreate()
        parser.ordered_attributes = True
        parser.StartElementHandler = self.start
        parser.XmlDeclHandler = self.declaration

    def declaration(self, version: str, encoding: Optional[str], standalone: int) -> None:
        """The declaration before the first element."""
        self.encoding = encoding.lower() if encoding else None

    def start(self, name: str, pairs: List[str]) -> None:
        """An element that begins."""
        if self.encoding not in PLAIN_ENCODINGS:
            return
        line, column = self.parser.CurrentLineNumber, self.parser.CurrentColumnNumber + 1
        tag = TAG.match(self.body, self.parser.CurrentByteIndex)
        at = tag.end() if tag else len(self.body)
        spots = []
        for key, text in zip(pairs[::2], pairs[1::2]):
            written = ATTRIBUTE.match(self.body, at)
            if not written or written[1].decode("utf-8", "replace") != key:
                return
            at = written.end()
            if key != "xmlns" and not key.startswith("xmlns:"):
                number = line + self.body.count(b"\n", tag.start() if tag else 0, written.start(1))
                quote = chr(self.body[written.start(2)])
                spots.append(Spot(key, text, self.path, number, written.start(2) + 1, at - 1, quote))
        self.found[line, column] = spots


def read(body: bytes, path: str) -> Tuple[Dict[Tuple[int, int], List[Spot]], bool]:
    """The values of a source up to where it is no XML in UTF-8, and whether that is its end."""
    source = Source(body, path)
    try:
        body.decode()
        source.parser.Parse(body, True)
    except (expat.ExpatError, LookupError, ValueError):
        return source.found, False
    return source.found, True


def of_begun_source(body: bytes, path: str) -> Dict[Tuple[int, int], List[Spot]]:
    """The values of a source up to where it is no XML in UTF-8, by line and column of their elements."""
    return read(body, path)[0]


def of_source(body: bytes, path: str) -> Dict[Tuple[int, int], List[Spot]]:
    """The values of a source, by line and column of their elements; none where it is no XML in UTF-8."""
    found, is_whole = read(body, path)
    return found if is_whole else {}

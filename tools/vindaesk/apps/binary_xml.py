"""Elements of compiled XML, as apps have it. It takes what Android takes, which is more than `inflate` does: strings in
modified UTF-8, and names of attributes that were taken away but have a number."""
import struct
from typing import List, Tuple

from ..layouts.documents import ANDROID
from ..resources.values import Type, Value
from .element import MAX_ATTRIBUTES, Builder, Element, key_of, refusal
from .platform_names import NAME_OF

XML, POOL, MAP, START, END = 0x3, 0x1, 0x180, 0x102, 0x103
UTF8 = 0x100
NONE = 0xFFFFFFFF
HEADER = struct.Struct("<HHI")
POOL_HEAD = struct.Struct("<IIIII")
START_HEAD = struct.Struct("<IIHHH")
ATTRIBUTE = struct.Struct("<IIIHBBI")
MAX_STRINGS = 65536


def is_compiled(data: bytes) -> bool:
    """Whether a file is compiled XML, by its first bytes."""
    return data[:2] == b"\3\0" and data[2:4] == b"\x08\0"


def modified_utf8(body: bytes) -> str:
    """A text in UTF-8 as Android's tools write it, where a character above U+FFFF may be two surrogates."""
    try:
        return body.decode("utf-8")
    except UnicodeDecodeError:
        text = body.decode("utf-8", "surrogatepass" if b"\xed" in body else "replace")
        return text.encode("utf-16", "surrogatepass").decode("utf-16", "replace")


def length(data: bytes, at: int) -> Tuple[int, int]:
    """A length of one or two bytes, and the place after it."""
    if data[at] & 0x80:
        return (data[at] & 0x7F) << 8 | data[at + 1], at + 2
    return data[at], at + 1


def string(data: bytes, at: int, is_utf8: bool) -> str:
    """The string at a place."""
    if is_utf8:
        _, at = length(data, at)
        size, at = length(data, at)
        return modified_utf8(data[at : at + size])
    (size,) = struct.unpack_from("<H", data, at)
    at += 2
    if size & 0x8000:
        size = (size & 0x7FFF) << 16 | struct.unpack_from("<H", data, at)[0]
        at += 2
    return data[at : at + 2 * size].decode("utf-16-le", "replace")


class Reader:
    """Reads a file."""

    def __init__(self, data: bytes, file: str):
        self.data, self.file = data, file
        self.strings: List[str] = []
        self.ids: List[int] = []
        self.builder = Builder(file)

    def pool(self, at: int, head: int) -> None:
        """The strings."""
        count, _, flags, start, _ = POOL_HEAD.unpack_from(self.data, at + 8)
        if count > MAX_STRINGS:
            raise refusal(self.file, "it has more than %d strings" % MAX_STRINGS)
        offsets = struct.unpack_from("<%dI" % count, self.data, at + head)
        self.strings = [string(self.data, at + start + it, bool(flags & UTF8)) for it in offsets]

    def text(self, number: int) -> str:
        """A string by its number."""
        return self.strings[number] if number != NONE else ""

    def attribute(self, element: Element, at: int) -> None:
        """The attribute at a place."""
        space, name, raw, _, _, kind, word = ATTRIBUTE.unpack_from(self.data, at)
        number = self.ids[name] if name < len(self.ids) else 0
        address, plain = self.text(space), self.text(name)
        if number in NAME_OF:
            address, plain = ANDROID, NAME_OF[number]
        text = self.text(word if kind == Type.STRING else raw) if kind == Type.STRING or raw != NONE else None
        element.put(key_of(address, plain), Value(kind, 0 if kind == Type.STRING else word, text))

    def start(self, at: int, head: int) -> None:
        """An element begins."""
        (line,) = struct.unpack_from("<I", self.data, at + 8)
        _, name, begin, size, count = START_HEAD.unpack_from(self.data, at + head)
        if count > MAX_ATTRIBUTES or (count and size < ATTRIBUTE.size):
            raise refusal(self.file, "an element has more than %d attributes, or broken ones" % MAX_ATTRIBUTES)
        element = Element(self.text(name), min(line, 0x7FFFFFFF))
        for number in range(count):
            self.attribute(element, at + head + begin + number * size)
        self.builder.start(element)

    def chunk(self, at: int) -> int:
        """Reads the chunk at a place, and returns the place after it."""
        kind, head, size = HEADER.unpack_from(self.data, at)
        if size < 8 or at + size > len(self.data):
            raise refusal(self.file, "it is broken at %d" % at)
        if kind == POOL:
            self.pool(at, head)
        elif kind == MAP:
            self.ids = list(struct.unpack_from("<%dI" % ((size - head) // 4), self.data, at + head))
        elif kind == START:
            self.start(at, head)
        elif kind == END:
            self.builder.end()
        return at + int(size)


def read(data: bytes, file: str) -> Element:
    """The outermost element of a file; a broken one is a failure that names it."""
    if not is_compiled(data):
        raise refusal(file, "it is no compiled XML")
    reader = Reader(data, file)
    try:
        at, end = HEADER.unpack_from(data)[1], min(len(data), HEADER.unpack_from(data)[2])
        while at + 8 <= end:
            at = reader.chunk(at)
    except (struct.error, IndexError, UnicodeError):
        raise refusal(file, "it is broken, or cut short")
    return reader.builder.done()

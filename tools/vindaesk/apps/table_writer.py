"""A table of resources from the sources of an app, in the form that the build tools write: so all that is looked up
in it follows the same rules as for a compiled app."""
import struct
from typing import Dict, List, NamedTuple, Tuple, Union

from ..resources.configuration import Configuration
from ..resources.packed import packed
from ..resources.values import Type, Value

TABLE, POOL, PACKAGE, TYPE, TYPE_SPEC = 0x2, 0x1, 0x200, 0x201, 0x202
UTF8 = 0x100
COMPLEX = 1
NONE = 0xFFFFFFFF
PACKAGE_HEAD = 288
MAX_TEXT = 0x7FFF


class Bag(NamedTuple):
    """Several values: the id of a parent, or 0; and values by their keys."""

    parent: int
    items: List[Tuple[int, Value]]


Content = Union[Value, Bag]


def chunk(kind: int, head: bytes, body: bytes) -> bytes:
    """A chunk: what is in its head after the first 8 bytes, and what follows."""
    body += bytes(-len(body) % 4)
    return struct.pack("<HHI", kind, 8 + len(head), 8 + len(head) + len(body)) + head + body


def length(count: int) -> bytes:
    """A length before a string."""
    return bytes([count]) if count < 0x80 else bytes([count >> 8 | 0x80, count & 0xFF])


class Pool:
    """Strings, each once."""

    def __init__(self) -> None:
        self.numbers: Dict[str, int] = {}

    def add(self, text: str) -> int:
        """The number of a string."""
        return self.numbers.setdefault(text, len(self.numbers))

    def written(self) -> bytes:
        """The chunk of the strings."""
        offsets, bodies, at = [], [], 0
        for text in self.numbers:
            data = text.encode("utf-8", "replace")[:MAX_TEXT].decode("utf-8", "ignore").encode()
            units = len(data.decode().encode("utf-16-le")) // 2
            offsets.append(at)
            bodies.append(length(units) + length(len(data)) + data + b"\0")
            at += len(bodies[-1])
        head = struct.pack("<5I", len(offsets), 0, UTF8, 28 + 4 * len(offsets), 0)
        return chunk(POOL, head, struct.pack("<%dI" % len(offsets), *offsets) + b"".join(bodies))


class Writer:
    """Writes the table of one package."""

    def __init__(self, number: int, name: str, types: List[str]):
        self.number, self.name = number, name
        self.strings, self.types, self.keys = Pool(), Pool(), Pool()
        for it in types:
            self.types.add(it)
        # by the number of a type and a configuration, entries by their numbers
        self.entries: Dict[Tuple[int, Configuration], Dict[int, Tuple[str, Content]]] = {}

    def put(self, kind: int, index: int, name: str, configuration: Configuration, content: Content) -> None:
        """Adds a resource; the first of an id and a configuration counts."""
        self.entries.setdefault((kind, configuration), {}).setdefault(index, (name, content))

    def value(self, value: Value) -> bytes:
        """A value of an entry or of a bag."""
        word = self.strings.add(value.text or "") if value.type == Type.STRING else value.data
        return struct.pack("<HBBI", 8, 0, value.type, word)

    def entry(self, name: str, content: Content) -> bytes:
        """An entry."""
        key = self.keys.add(name)
        if isinstance(content, Value):
            return struct.pack("<HHI", 8, 0, key) + self.value(content)
        rows = b"".join(struct.pack("<I", number) + self.value(it) for number, it in content.items)
        return struct.pack("<HHIII", 16, COMPLEX, key, content.parent, len(content.items)) + rows

    def type_chunk(self, kind: int, configuration: Configuration, count: int) -> bytes:
        """The entries of a type in a configuration."""
        offsets, body = [NONE] * count, b""
        parts: List[bytes] = []
        at = 0
        for index, (name, content) in sorted(self.entries[kind, configuration].items()):
            offsets[index] = at
            parts.append(self.entry(name, content))
            at += len(parts[-1])
        body = b"".join(parts)
        fields = packed(configuration)
        head = struct.pack("<BBHII", kind, 0, 0, count, 20 + len(fields) + 4 * count) + fields
        return chunk(TYPE, head, struct.pack("<%dI" % count, *offsets) + body)

    def package(self) -> bytes:
        """The chunk of the package."""
        body = b""
        for kind in sorted({kind for kind, _ in self.entries}):
            found = [it for it in self.entries if it[0] == kind]
            count = 1 + max(max(self.entries[it]) for it in found)
            body += chunk(TYPE_SPEC, struct.pack("<BBHI", kind, 0, 0, count), bytes(4 * count))
            body += b"".join(self.type_chunk(kind, configuration, count) for _, configuration in found)
        types, keys = self.types.written(), self.keys.written()
        name = self.name.encode("utf-16-le")[:254]
        head = struct.pack(
            "<I256s5I", self.number, name, PACKAGE_HEAD, len(self.types.numbers), PACKAGE_HEAD + len(types),
            len(self.keys.numbers), 0
        )
        return chunk(PACKAGE, head, types + keys + body)

    def written(self) -> bytes:
        """The whole table."""
        package = self.package()
        return chunk(TABLE, struct.pack("<I", 1), self.strings.written() + package)

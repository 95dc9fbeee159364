"""Writes tables of resources: all forms that Android reads, for checks of the reader, and for the table of
framework.py."""
import struct
from typing import Callable, Dict, List, Optional, Sequence, Tuple, Union

HEAD = 8
SPARSE, OFFSET16 = 1, 2
COMPLEX, COMPACT = 1, 8


def aligned(data: bytes) -> bytes:
    return data + bytes(-len(data) % 4)


def chunk(kind: int, head: bytes, body: bytes = b"") -> bytes:
    """A chunk of a kind: what is in its head after the first 8 bytes, and what follows."""
    body = aligned(body)
    return struct.pack("<HHI", kind, HEAD + len(head), HEAD + len(head) + len(body)) + head + body


class Pool:
    """A pool of strings in UTF-8 or UTF-16, each once."""

    def __init__(self, is_utf8: bool = True, encode: Callable[[str], bytes] = str.encode):
        self.is_utf8 = is_utf8
        self.encode = encode
        self.numbers: Dict[str, int] = {}

    def add(self, text: str) -> int:
        return self.numbers.setdefault(text, len(self.numbers))

    def length(self, number: int) -> bytes:
        """A length as the pool has it: in one part, or in two with a mark in the first."""
        if self.is_utf8:
            return bytes([number]) if number < 0x80 else bytes([0x80 | number >> 8 & 0x7F, number & 0xFF])
        words = (number,) if number < 0x8000 else (0x8000 | number >> 16, number & 0xFFFF)
        return struct.pack("<%dH" % len(words), *words)

    def string(self, text: str) -> bytes:
        units = text.encode("utf-16-le")
        if not self.is_utf8:
            return self.length(len(units) // 2) + units + b"\0\0"
        data = self.encode(text)
        return self.length(len(units) // 2) + self.length(len(data)) + data + b"\0"

    def written(self) -> bytes:
        strings = [self.string(it) for it in self.numbers]
        offsets, at = [], 0
        for it in strings:
            offsets.append(at)
            at += len(it)
        start = 28 + 4 * len(offsets)
        head = struct.pack("<5I", len(offsets), 0, 0x100 if self.is_utf8 else 0, start, 0)
        return chunk(1, head, struct.pack("<%dI" % len(offsets), *offsets) + b"".join(strings))


def modified(text: str) -> bytes:
    """UTF-8 in which characters beyond U+FFFF are two halves of 3 bytes, as aapt2 of Android 8 to 10 writes them."""
    units = text.encode("utf-16-le")
    return b"".join(chr(it).encode("utf-8", "surrogatepass") for it, in struct.iter_unpack("<H", units))


class Value:
    """A value: a type, and a word or the text of a string."""

    def __init__(self, kind: int, data: Union[int, str]):
        self.kind = kind
        self.data = data

    def written(self, pool: Pool) -> bytes:
        return struct.pack("<HBBI", 8, 0, self.kind, self.word(pool))

    def word(self, pool: Pool) -> int:
        return pool.add(self.data) if isinstance(self.data, str) else self.data


class Bag:
    """A bag: its parent, and its keys with their values."""

    def __init__(self, parent: int, rows: Sequence[Tuple[int, Value]]):
        self.parent = parent
        self.rows = rows


# what a resource is
Content = Union[Value, Bag]


class Package:
    """A package. `form` is how the entries of a type are found: dense, sparse or short (16 bits)."""

    def __init__(self, number: int, name: str, form: str = "dense", is_compact: bool = False):
        self.id = number
        self.name = name
        self.form = form
        self.is_compact = is_compact
        self.types: Dict[int, str] = {}
        # by type and configuration: the name and the content of each index
        self.entries: Dict[Tuple[int, bytes], Dict[int, Tuple[str, Content]]] = {}
        self.keys = Pool()
        self.others: List[bytes] = []

    def type(self, number: int, name: str) -> None:
        self.types[number] = name

    def put(self, number: int, configuration: bytes, key: str, it: Content) -> None:
        """A resource by its type and index (0xTTEEEE) in a configuration (the bytes of one)."""
        self.entries.setdefault((number >> 16, configuration), {})[number & 0xFFFF] = (key, it)

    def library(self, rows: Sequence[Tuple[int, str]]) -> None:
        """The ids by which it calls shared libraries."""
        body = b"".join(struct.pack("<I256s", number, name.encode("utf-16-le")) for number, name in rows)
        self.others.append(chunk(0x203, struct.pack("<I", len(rows)), body))

    def aliases(self, rows: Sequence[Tuple[int, int]]) -> None:
        """The ids in place of staged ones."""
        self.others.append(chunk(0x206, struct.pack("<I", len(rows)), b"".join(struct.pack("<II", *it) for it in rows)))

    def entry(self, key: str, it: Content, pool: Pool) -> bytes:
        number = self.keys.add(key)
        if isinstance(it, Bag):
            head = struct.pack("<HHIII", 16, COMPLEX, number, it.parent, len(it.rows))
            return head + b"".join(struct.pack("<I", name) + value.written(pool) for name, value in it.rows)
        if self.is_compact:
            return struct.pack("<HHI", number, COMPACT | it.kind << 8, it.word(pool))
        return struct.pack("<HHI", 8, 0, number) + it.written(pool)

    def offsets(self, places: Dict[int, int]) -> Tuple[bytes, int, int]:
        """The index of a type over the places of its entries; its flags, and its count."""
        if self.form == "sparse":
            rows = b"".join(struct.pack("<HH", it, places[it] // 4) for it in sorted(places))
            return rows, SPARSE, len(places)
        count = max(places) + 1
        if self.form == "short":
            short = [places.get(it, 4 * 0xFFFF) // 4 for it in range(count)]
            return aligned(struct.pack("<%dH" % count, *short)), OFFSET16, count
        return struct.pack("<%dI" % count, *(places.get(it, 0xFFFFFFFF) for it in range(count))), 0, count

    def type_chunk(self, kind: int, configuration: bytes, pool: Pool) -> bytes:
        places: Dict[int, int] = {}
        data = b""
        for index, (key, it) in sorted(self.entries[kind, configuration].items()):
            places[index] = len(data)
            data += self.entry(key, it, pool)
        rows, flags, count = self.offsets(places)
        start = HEAD + 12 + len(configuration) + len(rows)
        head = struct.pack("<BBHII", kind, flags, 0, count, start) + configuration
        return chunk(0x201, head, rows + data)

    def written(self, pool: Pool) -> bytes:
        types = Pool()
        for it in range(1, max(self.types) + 1):
            types.add(self.types.get(it, "?%d" % it))
        chunks = b""
        for kind in sorted({it for it, _ in self.entries}):
            count = 1 + max(max(rows) for (it, _), rows in self.entries.items() if it == kind)
            chunks += chunk(0x202, struct.pack("<BBHI", kind, 0, 0, count), bytes(4 * count))
            for configuration in [other for it, other in self.entries if it == kind]:
                chunks += self.type_chunk(kind, configuration, pool)
        type_bytes, key_bytes = types.written(), self.keys.written()
        head = struct.pack("<I256sIIIII", self.id, self.name.encode("utf-16-le"), 288, len(self.types),
                           288 + len(type_bytes), len(self.keys.numbers), 0)
        return chunk(0x200, head, type_bytes + key_bytes + chunks + b"".join(self.others))


def table(packages: Sequence[Package], pool: Optional[Pool] = None) -> bytes:
    """The table of some packages."""
    pool = pool or Pool()
    written = [it.written(pool) for it in packages]
    return chunk(2, struct.pack("<I", len(packages)), pool.written() + b"".join(written))

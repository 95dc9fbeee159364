"""A table of resources: `resources.arsc` of an app, of Android's framework or of a shared library, which is read when
something of it is asked for. The format is that of Android's ResourceTypes.h up to Android 14."""
import struct
from typing import Dict, Iterator, List, NamedTuple, Optional, Tuple

from .chunks import Chunk, Kind, Source
from .configuration import Configuration
from .packed import SIZE, unpacked
from .strings import StringPool
from .values import Value

# flags of a chunk of a type, and of an entry
SPARSE, OFFSET16 = 1, 2
COMPLEX, COMPACT = 1, 8
NO_ENTRY, NO_ENTRY16 = 0xFFFFFFFF, 0xFFFF
# the head of a chunk of a type without its configuration, and the least that a configuration is
TYPE_HEAD, LEAST_CONFIGURATION = 20, 28
# an item of a bag: a name, and a value
ITEM = struct.Struct("<IHBBI")
NAME_SIZE = 256
LIBRARY_SIZE = 4 + NAME_SIZE
# limits far from what real tables have: resources of a type, items of a bag (Android's framework has 514), and types
# times configurations (it has 3857)
MAX_ENTRIES = 1 << 16
MAX_ITEMS = 1 << 14
MAX_CHUNKS = 1 << 14


class RawBag(NamedTuple):
    """A bag as the table has it: its parent, and its items with their keys, of which some are equal in arrays."""

    parent: int
    rows: List[Tuple[int, Value]]


class RawEntry(NamedTuple):
    """A resource in one configuration as the table has it: the number of its name, and a value or a bag."""

    key: int
    value: Optional[Value]
    bag: Optional[RawBag]


class TypeChunk:
    """The resources of one type in one configuration."""

    __slots__ = ("source", "end", "flags", "count", "offsets", "entries", "configuration")

    def __init__(self, source: Source, chunk: Chunk):
        size = chunk.body - chunk.start
        if size < TYPE_HEAD + LEAST_CONFIGURATION:
            raise source.failure("the head of a type is too short", chunk.start)
        self.source = source
        self.end = chunk.end
        self.flags = source.u8(chunk.start + 9)
        self.count = source.u32(chunk.start + 12)
        self.offsets = chunk.body
        self.entries = chunk.start + source.u32(chunk.start + 16)
        stated = source.u32(chunk.start + TYPE_HEAD)
        if not LEAST_CONFIGURATION <= stated <= size - TYPE_HEAD:
            raise source.failure("a configuration of %d bytes does not fit in its chunk" % stated, chunk.start)
        self.configuration = unpacked(source.part(chunk.start + TYPE_HEAD, stated, chunk.body)[:SIZE])
        width = 2 if self.flags & OFFSET16 and not self.flags & SPARSE else 4
        if self.count > MAX_ENTRIES or self.offsets + width * self.count > min(self.entries, chunk.end):
            raise source.failure("a type of %d resources does not fit in its chunk" % self.count, chunk.start)

    def place(self, index: int) -> int:
        """Where the resource of a number is, or -1 where it is not in this configuration."""
        if self.flags & SPARSE:
            return self.sparse_place(index)
        if index >= self.count:
            return -1
        if self.flags & OFFSET16:
            offset = self.source.u16(self.offsets + 2 * index)
            return -1 if offset == NO_ENTRY16 else self.checked(4 * offset)
        offset = self.source.u32(self.offsets + 4 * index)
        return -1 if offset == NO_ENTRY else self.checked(offset)

    def sparse_place(self, index: int) -> int:
        """The same where only the resources that are there have a number and an offset, in the order of the numbers."""
        low, high = 0, self.count
        while low < high:
            middle = (low + high) // 2
            if self.source.u16(self.offsets + 4 * middle) < index:
                low = middle + 1
            else:
                high = middle
        if low == self.count or self.source.u16(self.offsets + 4 * low) != index:
            return -1
        return self.checked(4 * self.source.u16(self.offsets + 4 * low + 2))

    def checked(self, offset: int) -> int:
        """The place of an offset, which is inside of the chunk."""
        at = self.entries + offset
        if offset & 3 or at + 8 > self.end:
            raise self.source.failure("a resource is outside of its chunk", at)
        return at

    def indexes(self) -> Iterator[int]:
        """The numbers of the resources that are in this configuration."""
        return (index for index, _ in self.pairs())

    def pairs(self) -> Iterator[Tuple[int, int]]:
        """The same, each with its offset from where resources begin."""
        data = self.source.data
        if self.flags & SPARSE:
            pairs = struct.iter_unpack("<HH", data[self.offsets : self.offsets + 4 * self.count])
            return ((index, 4 * offset) for index, offset in pairs)
        width, none, times = ("H", NO_ENTRY16, 4) if self.flags & OFFSET16 else ("I", NO_ENTRY, 1)
        offsets = struct.unpack_from("<%d%s" % (self.count, width), data, self.offsets)
        return ((index, times * offset) for index, offset in enumerate(offsets) if offset != none)


class Package:
    """A package of a table: its id (0 of a shared library, which gets one when it is loaded), its name, its types."""

    def __init__(self, table: "Table", chunk: Chunk):
        source = table.data
        if chunk.body - chunk.start < 284:
            raise source.failure("the head of a package is too short", chunk.start)
        self.table = table
        self.source = source
        self.id = source.u32(chunk.start + 8)
        self.name = utf16_name(source, chunk.start + 12)
        self.type_pool: Optional[StringPool] = None
        self.key_pool: Optional[StringPool] = None
        self.type_offset = source.u32(chunk.start + 284) if chunk.body - chunk.start >= 288 else 0
        self.type_chunks: Dict[int, List[Chunk]] = {}
        self.types: Dict[int, List[TypeChunk]] = {}
        self.names: Dict[int, Dict[int, str]] = {}
        # the packages that this one refers to by ids of its own, and the ids in place of staged ones
        self.libraries: Dict[int, str] = {}
        self.aliases: Dict[int, int] = {}
        if self.id > 0xFF:
            raise source.failure("a package has the id %d" % self.id, chunk.start)
        self.read(chunk)

    def read(self, chunk: Chunk) -> None:
        """Goes over the chunks of the package. Those of kinds that say nothing of values are passed over."""
        source = self.source
        pools = [chunk.start + source.u32(chunk.start + at) for at in (268, 276)]
        for it in source.chunks(chunk.body, chunk.end):
            if it.kind == Kind.TYPE:
                self.type_chunks.setdefault(source.u8(it.start + 8), []).append(it)
                self.table.count_chunk(it)
            elif it.kind == Kind.STRINGS and it.start == pools[0]:
                self.type_pool = StringPool(source, it)
            elif it.kind == Kind.STRINGS and it.start == pools[1]:
                self.key_pool = StringPool(source, it)
            elif it.kind == Kind.LIBRARY:
                self.read_libraries(it)
            elif it.kind == Kind.STAGED_ALIAS:
                self.read_aliases(it)
        if self.type_chunks and (self.type_pool is None or self.key_pool is None):
            raise source.failure("a package has no names of types and resources", chunk.start)

    def read_libraries(self, chunk: Chunk) -> None:
        """The ids by which the package refers to shared libraries."""
        for number in range(self.counted(chunk, LIBRARY_SIZE)):
            at = chunk.body + LIBRARY_SIZE * number
            self.libraries[self.source.u32(at)] = utf16_name(self.source, at + 4)

    def read_aliases(self, chunk: Chunk) -> None:
        """The ids that were given to staged resources in the end."""
        for number in range(self.counted(chunk, 8)):
            at = chunk.body + 8 * number
            self.aliases[self.source.u32(at)] = self.source.u32(at + 4)

    def counted(self, chunk: Chunk, size: int) -> int:
        """The count at the begin of a chunk, of parts of a size that fit in it."""
        count = self.source.u32(chunk.start + 8)
        if chunk.body - chunk.start < 12 or chunk.body + count * size > chunk.end:
            raise self.source.failure("%d parts of %d bytes do not fit in their chunk" % (count, size), chunk.start)
        return count

    def chunks(self, kind: int) -> List[TypeChunk]:
        """The resources of a type by its id, for each configuration."""
        found = self.types.get(kind)
        if found is None:
            found = [TypeChunk(self.source, it) for it in self.type_chunks.get(kind, ())]
            self.types[kind] = found
        return found

    def type_name(self, kind: int) -> str:
        """The name of a type by its id."""
        name = self.type_pool.get(kind - 1 - self.type_offset) if self.type_pool else None
        return name if name is not None else "type%02x" % kind

    def entry_names(self, kind: int) -> Dict[int, str]:
        """The names of the resources of a type by their numbers; of one that has several the first."""
        if kind not in self.names:
            found: Dict[int, str] = {}
            for chunk in self.chunks(kind):
                for index, offset in chunk.pairs():
                    if index not in found:
                        found[index] = self.key_name(self.key(chunk.checked(offset)))
            self.names[kind] = found
        return self.names[kind]

    def key_name(self, key: int) -> str:
        """The name of a resource by the number of its name."""
        if self.key_pool is None:
            raise self.source.failure("a package has no names of resources", 0)
        return self.key_pool.text(key)

    def key(self, at: int) -> int:
        """The number of the name of the resource at a place."""
        flags = self.source.u16(at + 2)
        return self.source.u16(at) if flags & COMPACT else self.source.u32(at + 4)

    def entry(self, at: int, end: int) -> RawEntry:
        """The resource at a place in a chunk that ends there."""
        source = self.source
        size, flags = source.u16(at), source.u16(at + 2)
        if flags & COMPACT:
            return RawEntry(size, self.table.value(flags >> 8, source.u32(at + 4)), None)
        if not 8 <= size <= end - at:
            raise source.failure("a resource has a head of %d bytes" % size, at)
        key = source.u32(at + 4)
        if flags & COMPLEX:
            return RawEntry(key, None, self.bag(at, size, end))
        if at + size + 8 > end:
            raise source.failure("a value is outside of its chunk", at)
        return RawEntry(key, self.table.value(source.u8(at + size + 3), source.u32(at + size + 4)), None)

    def bag(self, at: int, size: int, end: int) -> RawBag:
        """The bag whose head of a size is at a place."""
        if size < 16:
            raise self.source.failure("a bag has a head of %d bytes" % size, at)
        parent, count = self.source.u32(at + 8), self.source.u32(at + 12)
        if count > MAX_ITEMS or at + size + ITEM.size * count > end:
            raise self.source.failure("a bag of %d items does not fit in its chunk" % count, at)
        value = self.table.value
        rows = ITEM.iter_unpack(self.source.data[at + size : at + size + ITEM.size * count])
        return RawBag(parent, [(name, value(kind, data)) for name, _, _, kind, data in rows])


class Table:
    """The packages of one file, and the strings that their values are."""

    def __init__(self, data: bytes, source: str):
        self.data = Source(data, source)
        self.source = source
        self.packages: List[Package] = []
        self.pool: Optional[StringPool] = None
        self.chunk_count = 0
        root = self.data.chunk(0, len(data))
        if root.kind != Kind.TABLE or root.body < 12:
            raise self.data.failure("this is no table of resources", 0)
        for it in self.data.chunks(root.body, root.end):
            if it.kind == Kind.STRINGS and self.pool is None:
                self.pool = StringPool(self.data, it)
            elif it.kind == Kind.PACKAGE:
                self.packages.append(Package(self, it))

    def count_chunk(self, chunk: Chunk) -> None:
        """Counts the types and configurations; Failure beyond `MAX_CHUNKS`."""
        self.chunk_count += 1
        if self.chunk_count > MAX_CHUNKS:
            raise self.data.failure("the table has more than %d types and configurations" % MAX_CHUNKS, chunk.start)

    def value(self, kind: int, data: int) -> Value:
        """The value of a type and a word of this table."""
        if kind != 3:
            return Value(kind, data, None, self.source)
        if self.pool is None:
            raise self.data.failure("a table with texts has no pool of them", 0)
        return Value(kind, data, self.pool.text(data), self.source)


def utf16_name(source: Source, at: int) -> str:
    """The name in 256 bytes at a place, up to its first 0."""
    return source.part(at, NAME_SIZE, len(source.data)).decode("utf-16-le", "replace").split("\0")[0]


def configurations(table: Table) -> List[Configuration]:
    """All configurations of a table, each once, in its order."""
    found: Dict[Configuration, None] = {}
    for package in table.packages:
        for kind in package.type_chunks:
            found.update((it.configuration, None) for it in package.chunks(kind))
    return list(found)

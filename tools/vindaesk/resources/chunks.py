"""The bytes of one of Android's binary resource files, read within their bounds, and the chunks in them: a kind, the
size of a head, and a size, as `ResChunk_header` of Android's ResourceTypes.h has them. Numbers are little endian."""
import struct
from typing import Iterator, NamedTuple

from ..common.failures import Failure
from ..common.messages import printable

U16 = struct.Struct("<H")
U32 = struct.Struct("<I")
HEAD = struct.Struct("<HHI")


class Kind:
    """The kinds of chunks in a table."""

    STRINGS = 0x0001
    TABLE = 0x0002
    PACKAGE = 0x0200
    TYPE = 0x0201
    TYPE_SPEC = 0x0202
    LIBRARY = 0x0203
    OVERLAYABLE = 0x0204
    OVERLAYABLE_POLICY = 0x0205
    STAGED_ALIAS = 0x0206


class Chunk(NamedTuple):
    """A chunk: its kind, where it begins, where its head ends, and where it ends."""

    kind: int
    start: int
    body: int
    end: int


class Source:
    """The bytes of a file and the name that messages give to it. Every read that leaves the bytes is a Failure."""

    __slots__ = ("data", "name")

    def __init__(self, data: bytes, name: str):
        self.data = data
        self.name = name

    def failure(self, what: str, at: int) -> Failure:
        """The Failure for what is wrong at a byte."""
        return Failure("%s: %s (at byte %d)" % (printable(self.name), printable(what), at))

    def u8(self, at: int) -> int:
        """The byte at a place."""
        if not 0 <= at < len(self.data):
            raise self.failure("the file is cut short", at)
        return self.data[at]

    def u16(self, at: int) -> int:
        """The 16-bit number at a place."""
        if not 0 <= at <= len(self.data) - 2:
            raise self.failure("the file is cut short", at)
        return int(U16.unpack_from(self.data, at)[0])

    def u32(self, at: int) -> int:
        """The 32-bit number at a place."""
        if not 0 <= at <= len(self.data) - 4:
            raise self.failure("the file is cut short", at)
        return int(U32.unpack_from(self.data, at)[0])

    def part(self, start: int, size: int, end: int) -> bytes:
        """A number of bytes, which end at `end` or before."""
        if not (0 <= start and 0 <= size <= end - start and end <= len(self.data)):
            raise self.failure("%d bytes do not fit here" % size, start)
        return self.data[start : start + size]

    def chunk(self, start: int, end: int) -> Chunk:
        """The chunk that begins at a place and ends at `end` or before."""
        if end - start < HEAD.size or end > len(self.data):
            raise self.failure("a chunk is cut short", start)
        kind, head, size = HEAD.unpack_from(self.data, start)
        if not HEAD.size <= head <= size <= end - start or (head | size) & 3:
            raise self.failure("a chunk of kind %04x has a head of %d and a size of %d bytes, where %d are left"
                               % (kind, head, size, end - start), start)
        return Chunk(kind, start, start + head, start + size)

    def chunks(self, start: int, end: int) -> Iterator[Chunk]:
        """The chunks between two places. Up to 7 bytes after the last one are passed over, as Android does."""
        while end - start >= HEAD.size:
            found = self.chunk(start, end)
            yield found
            start = found.end

"""Pools of strings: each is decoded when it is asked for. A pool is UTF-8 or UTF-16; its styles are passed over.

Android's build tools write UTF-8 in which a character beyond U+FFFF has 4 bytes, or (aapt2 from 2017 on) two halves
of 3 bytes each; both are read. What is no Unicode becomes U+FFFD, as Android shows it."""
from typing import Dict, Optional

from .chunks import Chunk, Kind, Source

UTF8 = 0x100
SPARE = 1 << 16
HEAD = 28
# strings that a pool may have; that of Android's framework has 130 thousand
MAX_POOL = 1 << 22


class StringPool:
    """The strings of one chunk."""

    def __init__(self, source: Source, chunk: Chunk):
        if chunk.kind != Kind.STRINGS or chunk.body - chunk.start < HEAD:
            raise source.failure("here should be a pool of strings", chunk.start)
        self.source = source
        self.end = chunk.end
        self.size = source.u32(chunk.start + 8)
        self.is_utf8 = bool(source.u32(chunk.start + 16) & UTF8)
        self.offsets = chunk.body
        self.strings = chunk.start + source.u32(chunk.start + 20)
        self.known: Dict[int, str] = {}
        # bytes that may still be decoded: each is in one string, except a few
        self.left = 2 * (chunk.end - chunk.start) + SPARE
        if self.size > MAX_POOL or chunk.body + 4 * self.size > chunk.end:
            raise source.failure("a pool of %d strings does not fit in its chunk" % self.size, chunk.start)
        if self.size and not chunk.body <= self.strings <= chunk.end:
            raise source.failure("the strings of a pool are outside of its chunk", chunk.start)

    def text(self, index: int) -> str:
        """The string of a number from 0; Failure where there is none."""
        found = self.known.get(index)
        if found is None:
            if not 0 <= index < self.size:
                raise self.source.failure("there is no string %d in a pool of %d" % (index, self.size), self.offsets)
            at = self.strings + self.source.u32(self.offsets + 4 * index)
            found = self.known[index] = self.utf8(at) if self.is_utf8 else self.utf16(at)
        return found

    def get(self, index: int) -> Optional[str]:
        """The string of a number, or None where the pool has none of it."""
        return self.text(index) if 0 <= index < self.size else None

    def utf8(self, at: int) -> str:
        """The string at a place: its length in UTF-16, its length in bytes, the bytes, and a 0."""
        byte = self.source.u8
        at += 2 if byte(at) & 0x80 else 1
        size = byte(at)
        at += 1
        if size & 0x80:
            size = (size & 0x7F) << 8 | byte(at)
            at += 1
        end, step = at + size, 0
        # a build tool wrote the last 15 bits of longer lengths; the 0 after the bytes says which is right
        while end < self.end and byte(end):
            step += 1
            end = at + (step << 15 | size)
        if end >= self.end:
            raise self.source.failure("a string does not end inside of its pool", at)
        return from_utf8(self.taken(at, end))

    def utf16(self, at: int) -> str:
        """The string at a place: its length in one or two words, and the words."""
        size = self.source.u16(at)
        at += 2
        if size & 0x8000:
            size = (size & 0x7FFF) << 16 | self.source.u16(at)
            at += 2
        if at + 2 * size > self.end:
            raise self.source.failure("a string does not end inside of its pool", at)
        return self.taken(at, at + 2 * size).decode("utf-16-le", "replace")

    def taken(self, start: int, end: int) -> bytes:
        """The bytes of a string. Failure where strings lie over each other, so that a small pool would be many
        texts."""
        self.left -= end - start
        if self.left < 0:
            raise self.source.failure("the strings of a pool lie over each other", start)
        return self.source.data[start:end]


def from_utf8(data: bytes) -> str:
    """The text of UTF-8, also where characters beyond U+FFFF are two halves, and 0 is two bytes."""
    try:
        return data.decode()
    except UnicodeDecodeError:
        halves = data.replace(b"\xc0\x80", b"\0").decode("utf-8", "surrogatepass" if is_halves(data) else "replace")
        return halves.encode("utf-16-le", "surrogatepass").decode("utf-16-le", "replace")


def is_halves(data: bytes) -> bool:
    """Whether bytes are UTF-8 except for halves of characters."""
    try:
        data.replace(b"\xc0\x80", b"\0").decode("utf-8", "surrogatepass")
        return True
    except UnicodeDecodeError:
        return False

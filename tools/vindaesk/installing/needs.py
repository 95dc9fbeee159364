"""What a program needs of the system: the libraries that it is linked with, and the version of the GNU C library whose
functions it calls. Both are in its ELF file (System V ABI; Linux Standard Base, "Symbol Versioning"), so no other tool,
as `objdump`, has to be there."""
import struct
from dataclasses import dataclass
from typing import Dict, Iterator, Tuple

from ..common import files
from ..common.failures import Failure, NOT_RUN

MAGIC = b"\x7fELF\x02\x01"
X86_64 = b"\x3e\0"
STRINGS, DYNAMIC, VERSIONS_NEEDED = 3, 6, 0x6FFFFFFE
NEEDED = 1
LIBC_VERSION = b"GLIBC_"
# the mark of a program whose relocations are packed, which this version was the first to read
RELATIVE_MARK, RELATIVE_VERSION = b"GLIBC_ABI_DT_RELR", (2, 36)
# what the C library's package has, and what the compiler's has
LIBRARIES = {
    b"libc.so.6": "libc6", b"libm.so.6": "libc6", b"ld-linux-x86-64.so.2": "libc6", b"libgcc_s.so.1": "libgcc-s1",
}


@dataclass(frozen=True)
class Section:
    """A section: its kind, its bytes, and the number of the section with its names."""

    kind: int
    body: bytes
    link: int


@dataclass(frozen=True)
class Needs:
    """The version of the C library, and Debian's packages of the libraries."""

    libc: Tuple[int, int]
    packages: Tuple[str, ...]

    def version(self) -> str:
        """The version in its usual form."""
        return "%d.%d" % self.libc


def sections(body: bytes) -> Dict[int, Section]:
    """The sections of a file, by their numbers."""
    offset, = struct.unpack_from("<Q", body, 0x28)
    size, count = struct.unpack_from("<HH", body, 0x3A)
    found = {}
    for number in range(count):
        kind, = struct.unpack_from("<I", body, offset + number * size + 4)
        start, length, link = struct.unpack_from("<QQI", body, offset + number * size + 0x18)
        found[number] = Section(kind, body[start : start + length], link)
    return found


def name_at(strings: bytes, place: int) -> bytes:
    """The name that begins at a place of a table of names."""
    return strings[place : strings.index(b"\0", place)]


def libraries(dynamic: Section, strings: bytes) -> Iterator[bytes]:
    """The names of the libraries that a program is linked with."""
    for place in range(0, len(dynamic.body) - 15, 16):
        kind, value = struct.unpack_from("<QQ", dynamic.body, place)
        if kind == NEEDED:
            yield name_at(strings, value)


def versions(needed: Section, strings: bytes) -> Iterator[bytes]:
    """The names of the versions that a program asks of its libraries."""
    place, following = 0, 1
    while following:
        count, = struct.unpack_from("<H", needed.body, place + 2)
        part, following = struct.unpack_from("<II", needed.body, place + 8)
        at = place + part
        for _ in range(count):
            name, step = struct.unpack_from("<II", needed.body, at + 8)
            yield name_at(strings, name)
            at += step
        place += following


def libc_version(names: Iterator[bytes]) -> Tuple[int, int]:
    """The least version of the C library that has all of these."""
    found = (0, 0)
    for name in names:
        if name == RELATIVE_MARK:
            found = max(found, RELATIVE_VERSION)
        elif name.startswith(LIBC_VERSION):
            numbers = name[len(LIBC_VERSION) :].split(b".")
            found = max(found, (int(numbers[0]), int(numbers[1])))
    return found


def of_program(path: str) -> Needs:
    """What a program needs; a Failure where it is none for Linux on x86-64, or needs what no package is known for."""
    body = files.read(path)
    if not body.startswith(MAGIC) or body[18:20] != X86_64:
        raise Failure("%s is no program for x86-64" % path, NOT_RUN)
    try:
        known = sections(body)
        linked = {name for it in known.values() if it.kind == DYNAMIC for name in libraries(it, known[it.link].body)}
        asked = (name for it in known.values() if it.kind == VERSIONS_NEEDED
                 for name in versions(it, known[it.link].body))
        libc = libc_version(asked)
    except (struct.error, ValueError, KeyError, IndexError):
        raise Failure("%s is no whole program" % path, NOT_RUN)
    for name in sorted(linked - set(LIBRARIES)):
        raise Failure("%s needs the library %s, which no package is known for" % (path, name.decode()), NOT_RUN)
    return Needs(libc, tuple(sorted({LIBRARIES[name] for name in linked})))

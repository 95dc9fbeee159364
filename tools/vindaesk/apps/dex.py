"""The classes of an app's code: which class each extends, and which methods it has. Of a file in Dalvik's format
only the lists that say this are read."""
import struct
from typing import Dict, List, Optional, Sequence, Tuple

from ..common.failures import Failure
from .app_files import AppFiles
from .binary_xml import modified_utf8

MAGIC = b"dex\n"
# the number and the place of each list in the header
STRINGS_AT, TYPES_AT, METHODS_AT, CLASSES_AT = 0x38, 0x40, 0x58, 0x60
CLASS = struct.Struct("<8I")
METHOD = struct.Struct("<HHI")
MAX_FILES = 64
MAX_CHAIN = 64
MAX_NAME = 1024
NONE = 0xFFFFFFFF


def number_at(data: bytes, at: int) -> Tuple[int, int]:
    """A number in groups of seven bits, and the place after it."""
    found = shift = 0
    while True:
        it = data[at]
        at += 1
        found |= (it & 0x7F) << shift
        shift += 7
        if not it & 0x80 or shift > 35:
            return found, at


class DexFile:
    """One file of code."""

    def __init__(self, data: bytes):
        self.data = data
        self.counts = {at: struct.unpack_from("<II", data, at) for at in (STRINGS_AT, TYPES_AT, METHODS_AT, CLASSES_AT)}
        self.places: Dict[str, int] = {}
        count, start = self.counts[CLASSES_AT]
        for number in range(min(count, len(data) // CLASS.size)):
            at = start + number * CLASS.size
            self.places[self.type_name(struct.unpack_from("<I", data, at)[0])] = at

    def text(self, number: int) -> str:
        """A text by its number."""
        count, start = self.counts[STRINGS_AT]
        if number >= count:
            raise IndexError
        (at,) = struct.unpack_from("<I", self.data, start + 4 * number)
        _, at = number_at(self.data, at)
        return modified_utf8(self.data[at : self.data.index(b"\0", at, at + MAX_NAME)])

    def type_name(self, number: int) -> str:
        """The name of a class, as `a.b.C`."""
        count, start = self.counts[TYPES_AT]
        if number >= count:
            raise IndexError
        (text,) = struct.unpack_from("<I", self.data, start + 4 * number)
        return self.text(text)[1:-1].replace("/", ".")

    def parent(self, name: str) -> Optional[str]:
        """The class that a class extends."""
        fields = CLASS.unpack_from(self.data, self.places[name])
        return self.type_name(fields[2]) if fields[2] != NONE else None

    def methods(self, name: str) -> List[str]:
        """The names of the methods that a class has itself and that others may override."""
        at = CLASS.unpack_from(self.data, self.places[name])[6]
        if not at:
            return []
        sizes = []
        for _ in range(4):
            size, at = number_at(self.data, at)
            sizes.append(size)
        for _ in range(2 * (sizes[0] + sizes[1])):
            _, at = number_at(self.data, at)
        for _ in range(3 * sizes[2]):
            _, at = number_at(self.data, at)
        found, number = [], 0
        for _ in range(sizes[3]):
            step, at = number_at(self.data, at)
            number += step
            for _ in range(2):
                _, at = number_at(self.data, at)
            found.append(self.text(METHOD.unpack_from(self.data, self.counts[METHODS_AT][1] + 8 * number)[2]))
        return found


class Classes:
    """The classes of an app. Code that is broken, or is not there, counts as none."""

    def __init__(self, files: AppFiles):
        self.files = files
        self.dexes: Optional[List[DexFile]] = None

    def all_files(self) -> List[DexFile]:
        """The files of code, which are read when they are first asked for."""
        if self.dexes is None:
            self.dexes = []
            for source in self.files.sources:
                for number in range(1, MAX_FILES):
                    path = "classes%s.dex" % (number if number > 1 else "")
                    if not self.files.has(path, source):
                        break
                    self.dexes += self.of_file(path, source)
        return self.dexes

    def of_file(self, path: str, source: str) -> List[DexFile]:
        """The code of a file, or nothing where it cannot be read."""
        try:
            data = self.files.read(path, source)
            return [DexFile(data)] if data.startswith(MAGIC) else []
        except (Failure, struct.error, IndexError, ValueError):
            return []

    def place(self, name: str) -> Optional[DexFile]:
        """The file that has a class."""
        return next((it for it in self.all_files() if name in it.places), None)

    def chain(self, name: str) -> List[str]:
        """A class, the one that it extends, and so on, up to the last one that is in the app, and the one that this one
        extends."""
        found = [name]
        while len(found) < MAX_CHAIN:
            dex = self.place(found[-1])
            try:
                parent = dex.parent(found[-1]) if dex else None
            except (struct.error, IndexError, ValueError):
                parent = None
            if parent is None or parent in found:
                return found
            found.append(parent)
        return found

    def overrides(self, names: Sequence[str], methods: Sequence[str]) -> Optional[Tuple[str, str]]:
        """The first of some classes that has one of some methods itself, and that method."""
        for name in names:
            dex = self.place(name)
            try:
                found = dex.methods(name) if dex else []
            except (struct.error, IndexError, ValueError):
                found = []
            for method in methods:
                if method in found:
                    return name, method
        return None

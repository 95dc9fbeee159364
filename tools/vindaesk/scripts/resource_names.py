"""A list of the names of resources and their ids, in the form of `aapt2 link --emit-ids`: lines `app:id/title =
0x7f080000`, of which the package may be missing. New names of views get ids of their own."""
import re
from typing import Dict, List, Optional, Tuple

from ..common.failures import Failure, NOT_RUN
from ..common.messages import shown

LINE = r"(?:([A-Za-z_][\w.]*):)?(\w+)/([\w.$-]+) *= *(?:0x)?([0-9A-Fa-f]{8})"
# the package of what an app has itself, and where the ids of its views begin where there are none yet
OWN = 0x7F
FIRST = 0x7F080000
SYSTEM = "android"
# how many entries a type may have
ENTRIES = 0x10000

Name = Tuple[str, str, str]


class Unnamed(Exception):
    """A name that the list has not, in a sentence."""


class Names:
    """The names that a list has: the package, the type and the name proper of each, with its id."""

    def __init__(self, text: bytes = b"", file: str = "") -> None:
        self.ids: Dict[Name, int] = {}
        self.names: Dict[int, Name] = {}
        # the packages but the system's, in the order of the list, and the last id of a view
        self.packages: Dict[str, None] = {}
        self.last = 0
        self.is_changed = False
        for number, line in enumerate(text.split(b"\n"), 1):
            line = line.strip()
            if line and not line.startswith(b"#"):
                self.read(line, "%s:%d" % (file, number))

    def read(self, line: bytes, place: str) -> None:
        """Takes a line of the list."""
        # loaded where there is a list, since each start would take longer
        from . import sentences

        found = re.fullmatch(LINE, line.decode("utf-8", "replace"), re.ASCII)
        if not found:
            raise Failure(sentences.NO_NAME_LINE % (place, shown(line)), NOT_RUN)
        name, number = (found[1] or "", found[2], found[3]), int(found[4], 16)
        if number == 0 or self.ids.get(name, number) != number or self.names.get(number, name) != name:
            raise Failure(sentences.NAME_AGAIN % (place, shown(line)), NOT_RUN)
        self.put(name, number)

    def put(self, name: Name, number: int) -> None:
        """Gives a name its id."""
        self.ids[name] = number
        self.names[number] = name
        if name[0] != SYSTEM:
            self.packages[name[0]] = None
        if number >> 24 == OWN and name[1] == "id":
            self.last = max(self.last, number)

    def found(self, package: str, kind: str, name: str) -> Optional[int]:
        """The id of a name. Without a package it may be that of any but the system's."""
        if package:
            return self.ids.get((package, kind, name))
        ids = (self.ids.get((it, kind, name)) for it in self.packages)
        return next((it for it in ids if it is not None), None)

    def id_of(self, package: str, kind: str, name: str) -> int:
        """The id of a name, which has to be there."""
        number = self.found(package, kind, name)
        if number is None:
            # the grammar is loaded where it is needed, since that takes a tenth of a start
            from .grammar import guess

            whole = "%s%s/%s" % (package and package + ":", kind, name)
            near = guess(name, tuple(it[2] for it in self.ids if it[1] == kind))
            raise Unnamed("the list of ids has no %s%s" % (whole, near))
        return number

    def made(self, name: str) -> int:
        """The id of a view's name, a new one where it has none."""
        number = self.found("", "id", name)
        if number is None:
            number = self.next_id()
            own = next(iter(self.packages), "app")
            self.put((own, "id", name), number)
            self.is_changed = True
        return number

    def next_id(self) -> int:
        """The id after the last one of a view; where there is none, the first of a type of which nothing has one."""
        if not self.last:
            return max([FIRST, *[((number >> 16) + 1) << 16 for number in self.names if number >> 24 == OWN]])
        if self.last % ENTRIES == ENTRIES - 1 or self.last + 1 in self.names:
            raise Unnamed("the list of ids has no room for a further name of a view")
        return self.last + 1

    def name_of(self, number: int, kind: str = "") -> Optional[str]:
        """The name of an id as a source has it, of some type where that matters."""
        if number not in self.names or kind not in ("", self.names[number][1]):
            return None
        package, found, name = self.names[number]
        return "%s%s/%s" % (SYSTEM + ":" if package == SYSTEM else "", found, name)

    def written(self) -> bytes:
        """The list, ordered by ids."""
        lines: List[str] = []
        for number, (package, kind, name) in sorted(self.names.items()):
            lines.append("%s%s/%s = 0x%08x\n" % (package and package + ":", kind, name, number))
        return "".join(lines).encode()

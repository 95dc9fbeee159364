"""Tables put together as Android's AssetManager2 does: packages of one id are one (an app and its split APKs), a
shared library gets an id when it is loaded, and what the tables call each other by is turned into these ids."""
from typing import Dict, Iterator, List, NamedTuple, Optional, Sequence, Tuple

from ..common.failures import Failure
from ..common.messages import printable
from .configuration import Configuration
from .matching import is_better, matches
from .tables import Package, RawEntry, Table, TypeChunk
from .values import Type, Value

ANDROID, APP = 0x01, 0x7F
FIRST_LIBRARY = 0x02
# configurations that all look-ups of one device may go through; a real look-up goes through some ten
MAX_VISITS = 1 << 23
# the types of references, of which those on the left are turned into those on the right
TURNED = {
    int(Type.DYNAMIC_REFERENCE): int(Type.REFERENCE), int(Type.DYNAMIC_ATTRIBUTE): int(Type.ATTRIBUTE),
    int(Type.REFERENCE): int(Type.REFERENCE), int(Type.ATTRIBUTE): int(Type.ATTRIBUTE),
}


class Found(NamedTuple):
    """A resource in a configuration: the package and the chunk that have it, and its place."""

    package: Package
    chunk: TypeChunk
    place: int

    def read(self) -> RawEntry:
        """The resource as its table has it."""
        return self.package.entry(self.place, self.chunk.end)


class Group:
    """The packages that have one id."""

    def __init__(self, number: int, name: str):
        self.id = number
        self.name = name
        self.packages: List[Package] = []
        # the ids that its tables use of other packages, and what they are here
        self.ids: Dict[int, int] = {0: number, ANDROID: ANDROID, APP: APP, number: number}
        self.names: Dict[int, Dict[str, int]] = {}

    def type_ids(self) -> List[int]:
        """The ids of its types, ascending."""
        return sorted({kind for it in self.packages for kind in it.type_chunks})

    def type_name(self, kind: int) -> Optional[str]:
        """The name of a type, or None where no table has it."""
        return next((it.type_name(kind) for it in self.packages if kind in it.type_chunks), None)

    def chunks(self, kind: int) -> Iterator[Tuple[Package, TypeChunk]]:
        """What its tables have of a type."""
        for package in self.packages:
            for chunk in package.chunks(kind):
                yield package, chunk

    def all(self, kind: int, index: int) -> Iterator[Found]:
        """A resource in all its configurations."""
        for package, chunk in self.chunks(kind):
            place = chunk.place(index)
            if place >= 0:
                yield Found(package, chunk, place)

    def key_name(self, kind: int, index: int) -> Optional[str]:
        """The name of a resource, or None where no table has it."""
        for found in self.all(kind, index):
            return found.package.key_name(found.package.key(found.place))
        return None

    def index_of(self, kind: int, name: str) -> Optional[int]:
        """The number of a resource of a type by its name."""
        if kind not in self.names:
            self.names[kind] = self.named(kind)
        return self.names[kind].get(name)

    def named(self, kind: int) -> Dict[str, int]:
        """The numbers of the resources of a type by their names; the first of equal names (which are obfuscated)
        counts."""
        seen: Dict[int, str] = {}
        for package in self.packages:
            for index, name in package.entry_names(kind).items():
                seen.setdefault(index, name)
        names: Dict[str, int] = {}
        for index in sorted(seen):
            names.setdefault(seen[index], index)
        return names


class Groups:
    """The packages of some tables by their ids."""

    def __init__(self, tables: Sequence[Table]):
        self.by_id: Dict[int, Group] = {}
        self.aliases: Dict[int, int] = {}
        libraries: Dict[str, int] = {}
        for package in (it for table in tables for it in table.packages):
            number = package.id
            if number == 0:
                number = libraries.setdefault(package.name, FIRST_LIBRARY + len(libraries))
            group = self.by_id.setdefault(number, Group(number, package.name))
            if number > 0xFF or (group.packages and (group.packages[0].id == 0) != (package.id == 0)):
                raise Failure("%s: its package %s has the id of a shared library"
                              % (printable(package.source.name), printable(package.name)))
            group.packages.append(package)
            self.aliases.update(package.aliases)
        self.link()

    def link(self) -> None:
        """Finds the packages that the tables name as libraries."""
        ids = {it.name: it.id for it in self.by_id.values()}
        for group in self.by_id.values():
            for package in group.packages:
                found = {number: ids[name] for number, name in package.libraries.items() if name in ids}
                group.ids.update(found)

    def id(self, group: Group, number: int) -> int:
        """The id of a resource that a table of a group calls by a number; the number itself where its package is not
        there."""
        number = self.aliases.get(number, number)
        package = group.ids.get(number >> 24)
        return number if package is None or number < 0x10000 else (number & 0xFFFFFF) | package << 24

    def value(self, group: Group, it: Value) -> Value:
        """A value of a table of a group, with the id that it means here."""
        kind = TURNED.get(it.type)
        if kind is None or it.data == 0 or (kind != it.type and it.data >> 24 not in group.ids):
            return it
        number = self.id(group, it.data)
        return it if (kind, number) == (it.type, it.data) else Value(kind, number, None, it.source)

    def key(self, group: Group, number: int) -> int:
        """The id of an item's name; those of Android's own, which name no resource, stay."""
        return self.id(group, number) if number & 0xFF0000 or not number & 0xFFFF0000 else number


class Choice:
    """What one device takes of some packages: the chunks that match are found once for each type."""

    def __init__(self, groups: Groups, device: Configuration):
        self.groups = groups
        self.device = device
        self.visits = 0
        self.matching: Dict[Tuple[int, int], List[Tuple[Package, TypeChunk]]] = {}

    def candidates(self, group: Group, kind: int) -> List[Tuple[Package, TypeChunk]]:
        """The chunks of a type that match the device."""
        key = (group.id, kind)
        found: Optional[List[Tuple[Package, TypeChunk]]] = self.matching.get(key)
        if found is None:
            found = [(it, chunk) for it, chunk in group.chunks(kind) if matches(chunk.configuration, self.device)]
            self.matching[key] = found
        return found

    def best(self, group: Group, kind: int, index: int) -> Optional[Found]:
        """A resource in the configuration that the device takes."""
        best: Optional[Found] = None
        candidates = self.candidates(group, kind)
        self.visits += len(candidates)
        if self.visits > MAX_VISITS:
            raise Failure("%s: its resources are looked for in more than %d configurations"
                          % (printable(candidates[0][0].source.name), MAX_VISITS))
        for package, chunk in candidates:
            place = chunk.place(index)
            if place < 0:
                continue
            if best is None or is_better(chunk.configuration, best.chunk.configuration, self.device):
                best = Found(package, chunk, place)
        return best

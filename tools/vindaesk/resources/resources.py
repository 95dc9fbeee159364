"""The resources of an app for one device: values by ids and names, through references and themes, and styles with
their parents.

What Android does is done (AssetManager2 of Android 10), except for what cannot end well there: a cycle of references or
of parents is a Failure with its chain."""
import re
from dataclasses import dataclass
from typing import Dict, Iterator, List, NamedTuple, Optional, Sequence, Tuple, Union

from ..common.failures import Failure
from ..common.messages import printable
from .attribute_formats import AttributeFormat, attribute_format
from .configuration import Configuration
from .groups import ANDROID, APP, Choice, Found, Group, Groups
from .tables import Table
from .themes import Item, Style, Theme
from .values import Type, Value

# references that follow each other, as Android has it, and parents of a style
MAX_CHAIN = 20
MAX_PARENTS = 100
# values that are kept for one device, in resources, styles and themes; all of Android's framework are some 200 thousand
MAX_READ = 1 << 20
# names of a chain that a message has
SHOWN = 12
# the keys of the items of arrays, and of plurals
ARRAY = 0x02000000
PLURALS = {0x01000004: "other", 0x01000005: "zero", 0x01000006: "one", 0x01000007: "two", 0x01000008: "few",
           0x01000009: "many"}
WORD = re.compile(r"[@?]?\+?(?:([^:/]+):)?(?:([^:/]+)/)?(.+)", re.S)


class Name(NamedTuple):
    """The name of a resource: its package, its type, and its own name."""

    package: str
    type: str
    entry: str

    def __str__(self) -> str:
        return "%s:%s/%s" % self


class File(NamedTuple):
    """A file that a resource is: its path inside of an app, and the app's path."""

    path: str
    source: str


@dataclass(frozen=True)
class Bag:
    """A resource of several values: a style, an array, plurals, or the format of an attribute. The rows are in the
    table's order; a key is the id of an attribute, or one of Android's own. In arrays of some build tools all keys
    are equal."""

    parent: int
    rows: Tuple[Tuple[int, Value], ...]
    source: str = ""

    @property
    def items(self) -> Dict[int, Value]:
        """The values by their keys; of equal keys the first counts, as for Android."""
        found: Dict[int, Value] = {}
        for key, it in self.rows:
            found.setdefault(key, it)
        return found

    def array(self) -> List[Value]:
        """The items of an array, in order."""
        return [it for _, it in self.rows]

    def plurals(self) -> Dict[str, Value]:
        """The items of plurals by their quantities: other, zero, one, two, few, many."""
        return {PLURALS[key]: it for key, it in self.items.items() if key in PLURALS}

    def format(self) -> AttributeFormat:
        """What an attribute takes."""
        return attribute_format(self.items)


@dataclass(frozen=True)
class Entry:
    """A resource in one configuration: a value, or a bag."""

    id: int
    configuration: Configuration
    value: Optional[Value]
    bag: Optional[Bag]


class Resources:
    """Tables together, for one device. The order of the tables is that in which Android loads them: the framework's
    first, then that of the app, its split APKs, and shared libraries."""

    def __init__(self, tables: Sequence[Table], device: Configuration, groups: Optional[Groups] = None):
        self.tables = list(tables)
        self.groups = groups or Groups(tables)
        self.device = device
        self.choice = Choice(self.groups, device)
        self.read_count = 0
        self.known: Dict[int, Optional[Entry]] = {}
        self.styles: Dict[int, Style] = {}
        self.no_theme = Theme(self, (), {})

    def for_device(self, device: Configuration) -> "Resources":
        """The same tables for another device; what was found in them is not looked for again."""
        return Resources(self.tables, device, self.groups)

    @property
    def packages(self) -> Dict[int, str]:
        """The names of the packages by their ids."""
        return {number: group.name for number, group in self.groups.by_id.items()}

    @property
    def app(self) -> int:
        """The id of the app's package: 7f, else the highest that is not the framework's; 0 where there is none."""
        found = sorted(it for it in self.groups.by_id if it != ANDROID)
        return APP if APP in found else found[-1] if found else 0

    def entry(self, number: int) -> Optional[Entry]:
        """What the device takes of an id; None where no table has it, or nothing of it matches."""
        number = self.groups.aliases.get(number, number)
        if number not in self.known:
            group = self.groups.by_id.get(number >> 24)
            found = self.choice.best(group, number >> 16 & 0xFF, number & 0xFFFF) if group else None
            self.known[number] = self.read(number, group, found) if group and found else None
        return self.known[number]

    def read(self, number: int, group: Group, found: Found) -> Entry:
        """A resource that was found, with ids that are valid here."""
        raw = found.read()
        self.count(1 + (len(raw.bag.rows) if raw.bag is not None else 0), found.package.source.name)
        value, bag = None, None
        if raw.value is not None:
            value = self.groups.value(group, raw.value)
        if raw.bag is not None:
            key, item = self.groups.key, self.groups.value
            rows = tuple((key(group, name), item(group, it)) for name, it in raw.bag.rows)
            parent = self.groups.id(group, raw.bag.parent) if raw.bag.parent else 0
            bag = Bag(parent, rows, found.package.source.name)
        return Entry(number, found.chunk.configuration, value, bag)

    def count(self, values: int, source: str) -> None:
        """Counts values that are kept for the device; Failure beyond `MAX_READ`."""
        self.read_count += values
        if self.read_count > MAX_READ:
            raise Failure("%s: more than %d values are read" % (printable(source), MAX_READ))

    def value(self, number: int) -> Optional[Value]:
        """The value of an id, which may be a reference; None for a bag too."""
        found = self.entry(number)
        return found.value if found else None

    def bag(self, number: int) -> Optional[Bag]:
        """The bag of an id, without what it has of its parents."""
        found = self.entry(number)
        return found.bag if found else None

    def entries(self, number: int) -> List[Entry]:
        """An id in all its configurations, in the order of the tables."""
        group = self.groups.by_id.get(number >> 24)
        if group is None:
            return []
        return [self.read(number, group, it) for it in group.all(number >> 16 & 0xFF, number & 0xFFFF)]

    def follow(self, value: Value, theme: Optional[Theme] = None) -> Tuple[Value, List[int]]:
        """Where a value leads through attributes of the theme, and from there through references, and the ids on the
        way. As in Android, an attribute that a reference leads to is not looked up. Where an id is a bag, is not
        there, or is no attribute of the theme, the end is the reference to it. Failure for a cycle, or for more than
        `MAX_CHAIN` steps."""
        way: List[int] = []
        is_referred = False
        while value.is_reference or (value.is_attribute and not is_referred):
            if value.data in way or len(way) > MAX_CHAIN:
                what = "lead in a circle" if value.data in way else "do not end after %d steps" % MAX_CHAIN
                raise Failure("%s: references %s: %s" % (printable(value.source), what, self.chain(way + [value.data])))
            way.append(value.data)
            if value.is_attribute:
                item = theme.item(value.data) if theme else None
                found = item.value if item and not item.value.is_unset else None
            else:
                is_referred = True
                found = self.value(value.data)
            if found is None:
                break
            value = found
        return value, way

    def resolve(self, value: Value, theme: Optional[Theme] = None) -> Value:
        """Where a value leads, as in `follow`."""
        return self.follow(value, theme)[0]

    def file(self, it: Union[int, Value]) -> Optional[File]:
        """The file that a resource is (a layout, a drawable ..) by its id or by a reference to it; None where it is
        no file."""
        value = Value(Type.REFERENCE, it) if isinstance(it, int) else it
        end, way = self.follow(value)
        name = self.name(way[-1]) if way else None
        if end.text is None or (name is not None and name.type == "string"):
            return None
        return File(end.text, end.source) if end.text.startswith("res/") or name is not None else None

    def name(self, number: int) -> Optional[Name]:
        """The name of an id; None where no table has it."""
        number = self.groups.aliases.get(number, number)
        group = self.groups.by_id.get(number >> 24)
        if group is None:
            return None
        kind = group.type_name(number >> 16 & 0xFF)
        entry = group.key_name(number >> 16 & 0xFF, number & 0xFFFF)
        return Name(group.name, kind, entry) if kind is not None and entry is not None else None

    def written(self, number: int) -> str:
        """The name of an id as a message has it, or the id itself where it has none."""
        return printable(str(self.name(number) or "0x%08x" % number))

    def place(self, number: int) -> str:
        """The file that has an id."""
        bag = self.bag(number)
        return bag.source if bag else "the tables"

    def chain(self, numbers: Sequence[int]) -> str:
        """Ids as a message names them."""
        names = [self.written(it) for it in numbers]
        return ", ".join(names if len(names) <= SHOWN else names[: SHOWN - 1] + ["..", names[-1]])

    def find(self, name: str, kind: str = "", package: str = "") -> Optional[int]:
        """The id of a name, as `android:dimen/app_icon_size`, `@dimen/gap`, or `gap` of a given type; of the app's
        package where none is said. None where it is not there."""
        match = WORD.fullmatch(name)
        if match is None:
            return None
        package, kind = match.group(1) or package, match.group(2) or kind
        for number, group in self.groups.by_id.items():
            if group.name == package if package else number == self.app:
                for it in group.type_ids():
                    if group.type_name(it) == kind:
                        index = group.index_of(it, match.group(3))
                        if index is not None:
                            return number << 24 | it << 16 | index
        return None

    def ids(self, kind: str = "", package: str = "") -> Iterator[int]:
        """The ids of a type and of a package, or all, ascending."""
        for number in sorted(self.groups.by_id):
            group = self.groups.by_id[number]
            for it in group.type_ids() if package in ("", group.name) else ():
                if kind in ("", group.type_name(it)):
                    indexes = {index for _, chunk in group.chunks(it) for index in chunk.indexes()}
                    for index in sorted(indexes):
                        yield number << 24 | it << 16 | index

    def style(self, number: int) -> Style:
        """A style with what it has of its parents. Where a parent is not there, it is the `missing` one of the style.
        Failure for a circle of parents, or for more than `MAX_PARENTS`."""
        if number not in self.styles:
            chain: List[int] = []
            missing, at = 0, number
            while at:
                if at in chain or len(chain) == MAX_PARENTS:
                    what = "are a circle" if at in chain else "are more than %d" % MAX_PARENTS
                    raise Failure("%s: the parents of the style %s %s: %s" % (
                        printable(self.place(number)), self.written(number), what, self.chain(chain + [at])))
                bag = self.bag(at)
                if bag is None:
                    missing = at
                    break
                chain.append(at)
                at = bag.parent
            self.styles[number] = self.merged(number, chain, missing)
        return self.styles[number]

    def merged(self, number: int, chain: List[int], missing: int) -> Style:
        """The style of a chain of parents, in which the nearer ones win."""
        items: Dict[int, Item] = {}
        for at in reversed(chain):
            bag = self.bag(at)
            if bag is not None:
                items.update((key, Item(it, at)) for key, it in bag.items.items())
        self.count(len(items), self.place(number))
        return Style(number, tuple(chain), items, missing)

    def theme(self, *styles: int) -> Theme:
        """The theme of some styles, each over those before it."""
        theme = self.no_theme
        for it in styles:
            theme = theme.applied(it)
        return theme

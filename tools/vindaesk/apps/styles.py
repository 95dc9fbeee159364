"""Which value an attribute of a view has: its own, else that of its style, else that of the style which its class
has by the theme, else that of the theme itself, as Android's `obtainStyledAttributes` takes them."""
from enum import Enum
from typing import Dict, FrozenSet, List, Mapping, NamedTuple, Optional, Tuple

from ..common.failures import Failure
from ..resources.resources import Resources
from ..resources.themes import Item, Theme
from .platform_names import NAME_OF, NUMBER_OF
from ..resources.values import Value

NULL = Value(0, 0)
# the items of a style by the numbers of attributes
Items = Mapping[int, Item]


class Origin(Enum):
    """Where a value is from."""

    OWN = "its own"
    STYLE = "its style"
    CLASS = "the style of its class"
    THEME = "the theme"


class Found(NamedTuple):
    """A value of an attribute: through all references, and as it is given; and where it is from. One that cannot be
    resolved is a reference still; `why`, where that is known."""

    value: Value
    given: Value
    origin: Origin
    why: str = ""

    @property
    def is_resolved(self) -> bool:
        """Whether there is a value, which may be null."""
        return self.value.is_null or not (self.value.is_reference or self.value.is_attribute)


class Lookup:
    """Finds the numbers of attributes, and styles, in the resources of an app; each is looked for once. If a
    library of the theme is not there, `stand_ins` are its attributes that lead to those of Android, with their
    names."""

    def __init__(self, resources: Resources, lacks_library: bool = False, stand_ins: Optional[Dict[int, str]] = None):
        self.resources = resources
        self.lacks_library, self.stand_ins = lacks_library, stand_ins or {}
        self.numbers: Dict[str, Optional[int]] = dict(NUMBER_OF)
        self.known: Dict[str, Optional[int]] = {}
        self.names: Dict[int, str] = {}
        self.themes: Dict[Tuple[int, ...], Theme] = {}
        self.shared: Dict[Tuple[int, int, int], Shared] = {}
        self.styles: Dict[Tuple[int, int, Tuple[int, ...]], Optional[Items]] = {}

    def number(self, key: str) -> Optional[int]:
        """The number of an attribute by its key, where it has one."""
        if key.startswith("android:"):
            return self.numbers.get(key[8:])
        if key not in self.known:
            plain = key[4:] if key.startswith("app:") else ""
            self.known[key] = self.resources.find("attr/" + plain) if plain else None
        return self.known[key]

    def key(self, number: int) -> str:
        """The key of an attribute by its number."""
        if number in NAME_OF:
            return "android:" + NAME_OF[number]
        if number not in self.names:
            name = self.resources.name(number)
            self.names[number] = "app:" + name.entry if name and name.type == "attr" else ""
        return self.names[number]

    def style(self, value: Value, theme: Theme) -> Optional[Mapping[int, Item]]:
        """The items of the style that a value names, with those of its parents; nothing where there is none."""
        key = value.type, value.data, theme.styles
        if key not in self.styles:
            number = self.style_number(value, theme)
            is_there = number is not None and self.resources.bag(number) is not None
            self.styles[key] = self.resources.style(number).items if is_there and number is not None else None
        return self.styles[key]

    def missing_parent(self, value: Value, theme: Theme) -> int:
        """The id of a parent of a style that is not there, or 0."""
        number = self.style_number(value, theme)
        return 0 if number is None or self.resources.bag(number) is None else self.resources.style(number).missing

    def style_number(self, value: Value, theme: Theme) -> Optional[int]:
        """The number of the style that a value names."""
        _, passed = self.resources.follow(value, theme)
        return passed[-1] if passed and not value.is_null else None

    def overlaid(self, theme: Theme, style: int) -> Theme:
        """A theme with a style over it."""
        key = (*theme.styles, style)
        if key not in self.themes:
            self.themes[key] = theme.applied(style)
        return self.themes[key]

    def shared_by(self, style: Items, class_style: Items, theme: Theme) -> "Shared":
        """What elements with these styles in this theme share."""
        key = (id(style) if style else 0, id(class_style) if class_style else 0, id(theme))
        if key not in self.shared:
            self.shared[key] = Shared(style, class_style, theme)
        return self.shared[key]


class Shared:
    """Which values attributes have that elements do not have themselves, in some styles and a theme. Most elements of a
    layout share them, so each is looked for once."""

    def __init__(self, style: Items, class_style: Items, theme: Theme):
        self.style, self.class_style, self.theme = style, class_style, theme
        self.given: Dict[str, Optional[Tuple[Value, Origin]]] = {}
        self.found: Dict[str, Optional[Found]] = {}
        # of which sets of attributes none has a value
        self.lacking: Dict[FrozenSet[str], bool] = {}
        # the keys of the items of the styles, once they were asked for
        self.keys: Optional[List[str]] = None

    def of(self, number: Optional[int]) -> Optional[Tuple[Value, Origin]]:
        """The value of the attribute of a number, and where it is from."""
        if number is None:
            return None
        for items, origin in ((self.style, Origin.STYLE), (self.class_style, Origin.CLASS)):
            item = items.get(number)
            if item is not None and not (item.value.type == 0 and item.value.data == 0):
                return item.value, origin
        item = self.theme.item(number)
        return (item.value, Origin.THEME) if item is not None else None


class Attributes:
    """The attributes of one element in a theme."""

    def __init__(self, own: Dict[str, Value], theme: Theme, lookup: Lookup, class_styles: List[str]):
        self.own, self.theme, self.lookup = own, theme, lookup
        self.broken: List[str] = []
        self.style = self.items_of(own.get("style"))
        # which of the attributes of the theme has the style of the class, and nothing where none has one
        self.class_key = ""
        self.class_style = self.first_of(class_styles)
        self.shared = lookup.shared_by(self.style, self.class_style, theme)

    def items_of(self, value: Optional[Value]) -> Mapping[int, Item]:
        """The items of a style that a value names."""
        try:
            found = self.lookup.style(value, self.theme) if value else {}
        except Failure as failure:
            self.broken.append(str(failure))
            return {}
        if found is None and value and not value.is_null:
            self.broken.append("the style is not in the resources")
        return found or {}

    def first_of(self, names: List[str]) -> Mapping[int, Item]:
        """The items of the style that the first of some attributes of the theme names: those of an app's library come
        before those of Android."""
        for name in names:
            number = self.lookup.number(name)
            item = self.theme.item(number) if number else None
            if item is not None:
                self.class_key = name
                return self.items_of(item.value)
        return {}

    def given(self, key: str) -> Optional[Tuple[Value, Origin]]:
        """The value of an attribute as it is given, and where it is from."""
        value = self.own.get(key)
        if value is not None:
            return value, Origin.OWN
        known = self.shared.given
        if key not in known:
            known[key] = self.shared.of(self.lookup.number(key))
        return known[key]

    def find(self, key: str) -> Optional[Found]:
        """The value of an attribute through all references; nothing where it has none."""
        if key in self.own:
            return self.followed(self.given(key))
        known = self.shared.found
        if key not in known:
            broken = len(self.broken)
            found = self.followed(self.given(key))
            if len(self.broken) > broken:
                return found
            known[key] = found
        return known[key]

    def lacks(self, keys: FrozenSet[str]) -> bool:
        """Whether none of some attributes has a value."""
        if not self.own.keys().isdisjoint(keys):
            return False
        known = self.shared.lacking
        if keys not in known:
            known[keys] = all(self.given(key) is None for key in keys)
        return known[keys]

    def keys_of_styles(self) -> List[str]:
        """The keys of the items of its style and of the style of its class."""
        if self.shared.keys is None:
            numbers = (*self.style, *self.class_style)
            self.shared.keys = [self.lookup.key(it) for it in numbers]
        return self.shared.keys

    def followed(self, given: Optional[Tuple[Value, Origin]]) -> Optional[Found]:
        """A value that is given, through all references."""
        if given is None:
            return None
        value, origin = given
        if not (value.is_reference or value.is_attribute):
            return Found(NULL if value.is_null else value, value, origin)
        try:
            resolved = self.lookup.resources.resolve(value, self.theme)
        except Failure as failure:
            self.broken.append(str(failure))
            return Found(value, value, origin, str(failure))
        return Found(NULL if resolved.is_null else resolved, value, origin)

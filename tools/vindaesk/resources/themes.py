"""Styles with all that they have of their parents, and themes: styles over each other, in which attributes are looked
up."""
from dataclasses import dataclass
from typing import TYPE_CHECKING, Dict, Mapping, NamedTuple, Optional, Tuple

from .values import Value

if TYPE_CHECKING:
    from .resources import Resources


class Item(NamedTuple):
    """An item of a style: its value, and the id of the style of the chain that has it."""

    value: Value
    style: int


@dataclass(frozen=True)
class Style:
    """A style: its id, itself and its parents from near to far, its items by the ids of attributes, and the id of a
    parent that no table has, or 0."""

    id: int
    chain: Tuple[int, ...]
    items: Dict[int, Item]
    missing: int = 0


class Theme:
    """Styles over each other: what a view finds by `?attr/name`."""

    def __init__(self, resources: "Resources", styles: Tuple[int, ...], items: Mapping[int, Item]):
        self.resources = resources
        self.styles = styles
        self.items = items
        # the themes with one more style over this one
        self.known: Dict[Tuple[int, bool], "Theme"] = {}

    def applied(self, style: int, force: bool = True) -> "Theme":
        """The theme with a style over it, as `android:theme` of a view has it; without force, what the theme has
        already stays."""
        found = self.known.get((style, force))
        if found is None:
            new = self.resources.style(style).items
            kept = set() if force else {key for key, it in self.items.items() if not it.value.is_unset}
            items = dict(self.items)
            items.update((key, it) for key, it in new.items() if key not in kept)
            self.resources.count(len(items), self.resources.place(style))
            found = Theme(self.resources, self.styles + (style,), items)
            self.known[style, force] = found
        return found

    def item(self, attribute: int) -> Optional[Item]:
        """What the theme says of an attribute, which may be a reference or another attribute."""
        return self.items.get(attribute)

    def value(self, attribute: int) -> Optional[Value]:
        """What the theme says of an attribute, through other attributes and references to where they lead; None
        where it says nothing, or @null."""
        item = self.items.get(attribute)
        if item is None or item.value.is_unset:
            return None
        return self.resources.resolve(item.value, self)

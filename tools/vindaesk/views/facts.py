"""What is known of a view beside where it lies: what lines and attributes set of it, and the element that it came from.

Settings are texts, in the words of lines: lengths as `match`, `wrap`, `8 px`, or with the unit of the attribute, as
`16dp` or `@7f060004`; no reply has them in pixels. A setting that a hook may have changed is None.

| setting | its text |
|---|---|
| width, height, min_width, min_height | a length |
| margins, padding | `L T R B px`, or attributes with their lengths, as `layout_margin 8dp, layout_marginStart 4dp` |
| gravity, content_gravity | words joined by `|`: where the view is placed in its parent, and where it places its children |
| weight, weight_sum | a number without a unit |
| orientation | `horizontal` or `vertical` |
| direction | `ltr`, `rtl`, `inherit`, or `locale` |
| ink | the colour of its text, alpha first, as `#ff0000ff` |
| clip, fill, split | `yes` or `no`: children are cut off at the padding, the child is as high as the room, pointers are passed one by one |
| intercept | the touches that it takes away from its children |
"""
from __future__ import annotations

from typing import TYPE_CHECKING, Dict, FrozenSet, List, Mapping, NamedTuple, Optional, Tuple

from ..common import files
from ..scripts.resource_names import Names
from ..scripts.script import Line

if TYPE_CHECKING:
    from ..layouts.app_elements import AppElement
    from ..layouts.elements import Element

Settings = Dict[str, Optional[str]]


class Place(NamedTuple):
    """Where something is written: a file, its line and its column, both from 1; 0 where the file has none."""

    file: str
    line: int
    column: int = 0

    def __str__(self) -> str:
        """As compilers write it: without what the file has not."""
        return ":".join([self.file, *(str(it) for it in (self.line, self.column) if it)])


class Attribute(NamedTuple):
    """An attribute of an element: its text as the source has it, the text of the value that it leads to through
    resources and the theme, the names of the resources on that way, and where it is from: `element`, or `style`, `class
    style` or `theme`."""

    written: str
    resolved: str
    resources: Tuple[str, ...] = ()
    origin: str = "element"


class Source(NamedTuple):
    """The element of a layout, or the line of a script, that made a view: its name; its place, and after it those of
    the elements and lines that include its file, from the innermost; its attributes by their keys, as `android:text`;
    the rules of lint that are to pass over it; whether the view was added for an element that has another one; whether
    bounds and picture are those that Android gives."""

    element: str
    places: Tuple[Place, ...]
    attributes: Mapping[str, Attribute] = {}
    ignored: FrozenSet[str] = frozenset()
    is_added: bool = False
    has_exact_bounds: bool = True
    has_exact_picture: bool = True


class Origin(NamedTuple):
    """What made a view: the line; of a view of a layout file the path of this, its element, the element of an app's
    source of which `tools/app` made that, the texts of the resources that it names by their ids, and the names of a
    list; the rules of lint that a comment names."""

    line: Line
    file: str = ""
    element: Optional[Element] = None
    of_app: Optional[AppElement] = None
    resolved: Mapping[int, str] = {}
    names: Optional[Names] = None
    ignored: FrozenSet[str] = frozenset()


def source_of(origin: Origin, kind: str) -> Source:
    """The source of a view of some class."""
    line, element = origin.line, origin.element
    at = Place(files.named(line.file), line.number, 1 + len(line.text) - len(line.text.lstrip(b" ")))
    lines = (at, *(Place(files.named(file), number) for file, number in line.around))
    if element is None:
        return Source(kind, lines, ignored=origin.ignored)
    places = (Place(origin.file, element.line), *lines)
    of_app = origin.of_app
    if of_app:
        # the attributes of the file are those that `tools/app` gave it, and not those of the app
        own = Place(of_app.file, of_app.line, of_app.column)
        return Source(of_app.name, (own, *places), {}, origin.ignored, of_app.is_added, of_app.has_exact_bounds,
                      of_app.has_exact_picture)
    # loaded for views of layout files alone, since that takes a tenth of a start
    from .element_facts import attributes_of

    made = attributes_of(element.attributes, origin.names or Names(), origin.resolved)
    return Source(element.whole, places, made, origin.ignored)


def of_line(words: List[str]) -> Settings:
    """The settings of a line, or of an edit of a hook, by its words; nothing where it sets none."""
    first, rest = words[0], words[2:]
    if first in ("size", "min"):
        sizes = [it if it in ("match", "wrap") else it + " px" for it in rest]
        return dict(zip(("width", "height") if first == "size" else ("min_width", "min_height"), sizes))
    if first in ("margins", "padding"):
        return {first: " ".join(rest) + " px"}
    if first in ("weight", "weightsum"):
        share = int(rest[0]) + (int(rest[1]) / 256 if len(rest) > 1 else 0)
        return {"weight" if first == "weight" else "weight_sum": "%g" % share}
    if first == "gravity":
        return {"gravity" if rest[0] == "self" else "content_gravity": rest[1]}
    if first == "flag":
        return {rest[0]: rest[1]}
    if first in ("orient", "direction", "intercept", "ink"):
        name = "orientation" if first == "orient" else first
        return {name: rest[0].lower() if first == "ink" else " ".join(rest)}
    return {}

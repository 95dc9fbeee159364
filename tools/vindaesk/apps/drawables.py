"""What a drawable is to a layout: its own size, its padding, and one colour for what it shows."""
from dataclasses import dataclass, replace
from fractions import Fraction
from typing import Dict, FrozenSet, List, NamedTuple, Optional, Tuple

from ..common.failures import Failure
from ..resources.configuration import ANYDPI, NODPI
from ..resources.resources import Resources
from ..resources.themes import Theme
from ..resources.values import Type, Value
from . import bitmaps
from .app_files import AppFiles
from .bitmaps import Edges
from .element import Element

MAX_DEPTH = 16
# a bitmap takes some hundredths of a second
MAX_BITMAPS = 1000
MASK = 0x0102002E
BASE_DENSITY = 160
SHIFTED = 0.5
EDGES = ("Left", "Top", "Right", "Bottom")
CONTAINERS = ("inset", "rotate", "scale", "clip", "animated-rotate", "item")
LAYERS = ("layer-list", "ripple", "transition")
STATES = {
    "state_pressed", "state_focused", "state_selected", "state_checked", "state_activated", "state_hovered",
    "state_enabled",
    "state_checkable", "state_window_focused", "state_accelerated", "state_first", "state_last", "state_single",
    "state_middle", "state_active", "state_multiline",
}
# what is so where no state is asked for
PLAIN = frozenset({"state_enabled", "state_window_focused", "state_multiline"})


@dataclass(frozen=True)
class Drawable:
    """A drawable. The size is in pixels, -1 where it has none of its own; the colour is 0xAARRGGBB, or None where it is
    not known. `picture` says in which it differs from what Android shows, `bounds` what of its size is not known."""

    colour: Optional[int] = 0
    width: int = -1
    height: int = -1
    padding: Optional[Edges] = None
    picture: Tuple[str, ...] = ()
    bounds: Tuple[str, ...] = ()


def once(one: Tuple[str, ...], other: Tuple[str, ...]) -> Tuple[str, ...]:
    """The sentences of two drawables, each once."""
    return tuple(dict.fromkeys(one + other))


NOTHING = Drawable()
NO_EDGES: Edges = (0, 0, 0, 0)


def unknown(why: str) -> Drawable:
    """A drawable that cannot be read."""
    return Drawable(None, -1, -1, None, (why,), (why,))


def over(top: int, under: int) -> int:
    """A colour over another."""
    alpha, below = top >> 24, under >> 24
    whole = alpha + below * (255 - alpha) // 255
    if not whole:
        return 0
    found = whole
    for shift in (16, 8, 0):
        one, other = top >> shift & 255, under >> shift & 255
        part = (one * alpha * 255 + other * below * (255 - alpha)) // (255 * whole)
        found = found << 8 | min(part, 255)
    return found


def joined_edges(one: Edges, other: Edges, is_sum: bool) -> Edges:
    """Two edges of each side as one: their sum, or the larger one."""
    left, top, right, bottom = (a + b if is_sum else max(a, b) for a, b in zip(one, other))
    return left, top, right, bottom


def joined(colours: List[Optional[int]]) -> Optional[int]:
    """The colour of layers, the first at the bottom; those that are not known are left out."""
    found: Optional[int] = None
    for it in colours:
        if it is not None:
            found = it if found is None else over(it, found)
    return found


def pixels(value: Value, density: int) -> Optional[int]:
    """A length in pixels, brought to the nearest one as Android does: not to 0 where it is not 0."""
    if value.type == Type.DIMENSION:
        try:
            exact = value.complex().pixels(density)
        except (Failure, ValueError, KeyError, IndexError):
            return None
        whole = int((abs(exact) + Fraction(1, 2)).__floor__())
        whole = -int((abs(exact) - Fraction(1, 2)).__ceil__()) if exact < 0 else whole
        return whole or (0 if exact == 0 else 1 if exact > 0 else -1)
    if value.is_int or value.is_boolean:
        return value.number()
    return None


def length_of_path(path: Element) -> int:
    """How long the text of a path is."""
    found = path.attributes.get("android:pathData")
    return len(found.text or "") if found is not None else 0


class Shown(NamedTuple):
    """In which theme and how deep a drawable is read."""

    theme: Theme
    depth: int


class Drawables:
    """Reads the drawables of an app, each once for each theme; the colours of bitmaps, which take the most time, where
    they are asked for."""

    def __init__(self, files: AppFiles, resources: Resources, density: int, states: FrozenSet[str] = frozenset(),
                 has_colours: bool = True):
        self.files, self.resources, self.density, self.has_colours = files, resources, density, has_colours
        self.states = states | PLAIN if "state_disabled" not in states else (states | PLAIN) - {"state_enabled"}
        self.found: Dict[Tuple[str, str, Tuple[int, ...]], Drawable] = {}
        self.of_checked: Optional[Drawables] = None
        self.of_sizes = self if not has_colours else Drawables(files, resources, density, self.states, False)
        self.bitmaps = 0

    def checked(self) -> "Drawables":
        """The same, of views that are checked."""
        if self.of_checked is None:
            self.of_checked = Drawables(self.files, self.resources, self.density, self.states | {"state_checked"})
        return self.of_checked

    def of(self, value: Value, theme: Theme, depth: int = 0) -> Drawable:
        """The drawable of a value."""
        if value.is_color:
            return Drawable(value.color())
        try:
            resolved, passed = self.resources.follow(value, theme)
        except Failure as failure:
            return unknown(str(failure))
        if resolved.is_color:
            return Drawable(resolved.color())
        if resolved.is_null:
            return NOTHING
        if resolved.is_int and resolved.data == 0:
            return NOTHING
        if resolved.text is None or not resolved.is_string:
            return unknown("the drawable is not in the resources")
        if depth > MAX_DEPTH:
            return unknown("drawables name one another in a circle, or more than %d deep" % MAX_DEPTH)
        return self.of_file(resolved, passed, Shown(theme, depth))

    def of_file(self, value: Value, passed: List[int], shown: Shown) -> Drawable:
        """The drawable of a file."""
        path, source = value.text or "", value.source
        key = path, source, tuple(shown.theme.styles)
        if key not in self.found:
            if not self.files.has(path, source):
                return unknown("%s is not in the app" % path)
            if path.endswith(".xml"):
                root = self.files.document(path, source)
                self.found[key] = self.of_element(root, shown) if root else unknown("%s is empty" % path)
            else:
                self.found[key] = self.of_bitmap(path, source, passed)
        return self.found[key]

    def of_bitmap(self, path: str, source: str, passed: List[int]) -> Drawable:
        """The drawable of a bitmap, in the size that it has on this screen."""
        self.bitmaps += 1
        if self.bitmaps > MAX_BITMAPS:
            return unknown("more than %d bitmaps are shown, and this is one more" % MAX_BITMAPS)
        is_drawn = path.endswith(".9.png") and self.files.is_source(source)
        found = bitmaps.read(self.files.read(path, source), is_drawn, self.has_colours)
        if found is None:
            return unknown("%s is no bitmap that is known" % path)
        entry = self.resources.entry(passed[-1]) if passed else None
        density = entry.configuration.density if entry else 0
        density = density or BASE_DENSITY
        is_scaled = density not in (ANYDPI, NODPI)

        def scaled(size: int) -> int:
            return (size * self.density + density // 2) // density if is_scaled else size

        padding = found.padding
        if padding and is_scaled:
            left, top, right, bottom = (int(it * self.density / density + SHIFTED) for it in padding)
            padding = left, top, right, bottom
        why = "a picture as its mean colour" if found.colour is not None else "a picture is left out"
        return Drawable(found.colour, max(scaled(found.width), 1), max(scaled(found.height), 1), padding, (why,))

    def value(self, element: Element, key: str, theme: Theme) -> Optional[Value]:
        """An attribute of an element of a drawable, through references."""
        value = element.attributes.get(key)
        if value is None:
            return None
        try:
            found = self.resources.resolve(value, theme)
        except Failure:
            return None
        return None if found.is_reference or found.is_attribute else found

    def length(self, element: Element, name: str, theme: Theme, otherwise: int = 0) -> int:
        """A length of an element in pixels."""
        value = self.value(element, "android:" + name, theme)
        found = pixels(value, self.density) if value else None
        return otherwise if found is None else found

    def of_element(self, root: Element, shown: Shown) -> Drawable:
        """The drawable of an element, with its tint."""
        found = self.untinted(root, shown)
        value = root.attributes.get("android:tint")
        tint = self.of(value, shown.theme, shown.depth + 1).colour if value else None
        if tint is None or found.colour is None:
            return found
        return replace(found, colour=(found.colour >> 24) * (tint >> 24) // 255 << 24 | tint & 0xFFFFFF)

    def untinted(self, root: Element, shown: Shown) -> Drawable:
        """The drawable of an element, without its tint."""
        if root.name in ("selector", "animated-selector"):
            return self.of_states(root, shown)
        if root.name in LAYERS:
            return self.of_layers(root, shown)
        if root.name == "shape":
            return self.of_shape(root, shown.theme)
        if root.name in ("vector", "animated-vector"):
            return self.of_vector(root, shown)
        if root.name in ("bitmap", "nine-patch"):
            return self.of_attribute(root, "android:src", shown)
        if root.name in ("animation-list", "level-list") or root.name.endswith("AnimationScaleListDrawable"):
            first = next((it for it in root.children if it.name == "item"), None)
            found = self.of_child(first, shown) if first else NOTHING
            return replace(found, picture=(*found.picture, "the first picture of an animation or of levels"))
        if root.name == "inset":
            return self.of_inset(root, shown)
        if root.name == "color":
            return self.of_attribute(root, "android:color", shown)
        if root.name in CONTAINERS:
            return self.of_child(root, shown)
        return unknown("<%s> is no drawable that is known" % root.name)

    def of_attribute(self, element: Element, key: str, shown: Shown) -> Drawable:
        """The drawable that an attribute names."""
        value = element.attributes.get(key)
        return self.of(value, shown.theme, shown.depth + 1) if value else NOTHING

    def of_child(self, element: Element, shown: Shown) -> Drawable:
        """The drawable that an item names, or that is in it."""
        for key in ("android:drawable", "android:color"):
            if key in element.attributes:
                return self.of(element.attributes[key], shown.theme, shown.depth + 1)
        if not element.children:
            return NOTHING
        if shown.depth > MAX_DEPTH:
            return unknown("drawables are more than %d deep" % MAX_DEPTH)
        return self.of_element(element.children[0], Shown(shown.theme, shown.depth + 1))

    def fits(self, item: Element) -> bool:
        """Whether an item of a list of states is for the states that are shown."""
        for key, value in item.attributes.items():
            name = key.rsplit(":", 1)[-1]
            if name.startswith("state_") and value.boolean() != (name in self.states):
                return False
        return True

    def of_states(self, root: Element, shown: Shown) -> Drawable:
        """The drawable of the states that are shown. The padding is the largest of all states, unless it may vary."""
        items = [it for it in root.children if it.name == "item"]
        chosen = next((it for it in items if self.fits(it)), None)
        found = self.of_child(chosen, shown) if chosen else NOTHING
        if chosen and chosen.attributes.get("android:alpha") is not None and found.colour is not None:
            alpha = self.value(chosen, "android:alpha", shown.theme)
            factor = alpha.real() if alpha and alpha.type == Type.FLOAT else 1.0
            if 0 <= factor <= 1:
                alpha_word = int((found.colour >> 24) * factor + SHIFTED)
                found = replace(found, colour=alpha_word << 24 | found.colour & 0xFFFFFF)
        varies = root.attributes.get("android:variablePadding")
        if (varies and varies.boolean()) or not any("android:drawable" in it.attributes or it.children for it in items):
            return found
        all_states = [self.of_sizes.of_child(it, shown) for it in items]
        paddings = [it.padding for it in all_states if it.padding]
        if paddings:
            left, top, right, bottom = (max(it[k] for it in paddings) for k in range(4))
            found = replace(found, padding=(left, top, right, bottom))
        constant = root.attributes.get("android:constantSize")
        if constant and constant.boolean():
            found = replace(found, width=max(it.width for it in all_states), height=max(it.height for it in all_states))
        return found

    def insets(self, element: Element, theme: Theme, names: Tuple[str, str]) -> Edges:
        """The insets of an element: those of all sides have the first name, that of a side the second and its side."""
        whole = self.length(element, names[0], theme)
        left, top, right, bottom = (self.length(element, names[1] + it, theme, whole) for it in EDGES)
        return left, top, right, bottom

    def of_inset(self, root: Element, shown: Shown) -> Drawable:
        """A drawable with room around it, which counts as padding too."""
        found = self.of_child(root, shown)
        left, top, right, bottom = self.insets(root, shown.theme, ("inset", "inset"))
        inner = found.padding or (0, 0, 0, 0)
        padding = inner[0] + left, inner[1] + top, inner[2] + right, inner[3] + bottom
        more = ("the room around a drawable is coloured too",) if any((left, top, right, bottom)) else ()
        return replace(
            found, padding=padding if any(padding) else None, picture=found.picture + more,
            width=found.width + left + right if found.width >= 0 else -1,
            height=found.height + top + bottom if found.height >= 0 else -1,
        )

    def of_layers(self, root: Element, shown: Shown) -> Drawable:
        """Drawables over one another. The paddings of lower ones are room around upper ones, unless they are
        stacked."""
        mode = root.attributes.get("android:paddingMode")
        is_nested = root.name != "ripple" and not (mode and (mode.text == "stack" or mode.data == 1))
        made = NOTHING
        colours: List[Optional[int]] = []
        before = NO_EDGES
        for item in [it for it in root.children if it.name == "item"][: 1 if root.name == "transition" else None]:
            layer = self.of_layer(item, shown, before if is_nested else NO_EDGES)
            inner = layer.padding or NO_EDGES
            before = joined_edges(before, inner, is_nested)
            made = replace(made, width=max(made.width, layer.width), height=max(made.height, layer.height))
            number = item.attributes.get("android:id")
            if number is None or number.data != MASK:
                colours.append(layer.colour)
                made = replace(
                    made, picture=once(made.picture, layer.picture), bounds=once(made.bounds, layer.bounds)
                )
        return replace(made, colour=joined(colours) if colours else 0, padding=before if any(before) else None)

    def of_layer(self, item: Element, shown: Shown, around: Edges) -> Drawable:
        """A layer with the room around it in its size: its own, and the padding of the layers below it."""
        found = self.of_child(item, shown)
        room = self.item_insets(item, shown.theme)
        width = self.length(item, "width", shown.theme, found.width)
        height = self.length(item, "height", shown.theme, found.height)
        more = ("the room around a layer is coloured too",) if any(room) else ()
        return replace(
            found, picture=found.picture + more,
            width=width + room[0] + room[2] + around[0] + around[2] if width >= 0 else -1,
            height=height + room[1] + room[3] + around[1] + around[3] if height >= 0 else -1,
        )

    def item_insets(self, item: Element, theme: Theme) -> Edges:
        """The room around a layer."""
        left, top, right, bottom = (self.length(item, it.lower(), theme) for it in EDGES)
        start, end = self.length(item, "start", theme, left), self.length(item, "end", theme, right)
        return start, top, end, bottom

    def of_shape(self, root: Element, theme: Theme) -> Drawable:
        """A shape: its size, its padding, and the colour that fills it, or the middle of its gradient."""
        made, picture = Drawable(0), []
        for part in root.children:
            if part.name == "size":
                width, height = self.length(part, "width", theme, -1), self.length(part, "height", theme, -1)
                made = replace(made, width=width, height=height)
            elif part.name == "padding":
                left, top, right, bottom = (self.length(part, it.lower(), theme) for it in EDGES)
                made = replace(made, padding=(left, top, right, bottom))
            elif part.name == "solid":
                made = replace(made, colour=self.colour(part, "android:color", theme))
            elif part.name == "gradient":
                made = replace(made, colour=self.gradient(part, theme))
                picture.append("a gradient as its mean colour")
            elif part.name == "stroke":
                picture.append("the line around a shape is left out")
            elif part.name == "corners":
                picture.append("round corners are square")
        shape = root.attributes.get("android:shape")
        if shape is not None and (shape.data != 0 or shape.text not in (None, "rectangle")):
            picture.append("a shape that is no rectangle as one")
        if made.colour is None:
            picture.append("a colour that is not in the resources is left out")
        return replace(made, picture=tuple(picture))

    def colour(self, element: Element, key: str, theme: Theme) -> Optional[int]:
        """The colour of an attribute; that of a list of colours is the one of the states that are shown."""
        value = element.attributes.get(key)
        return self.colour_of(value, theme) if value else None

    def colour_of(self, value: Value, theme: Theme) -> Optional[int]:
        """The colour of a value."""
        return self.of(value, theme).colour

    def gradient(self, element: Element, theme: Theme) -> Optional[int]:
        """The mean of the colours of a gradient."""
        names = ("startColor", "centerColor", "endColor")
        found = [self.colour(element, "android:" + it, theme) for it in names]
        known = [it for it in found if it is not None]
        if not known:
            return None
        parts = [(it >> 24 & 255, it >> 16 & 255, it >> 8 & 255, it & 255) for it in known]
        return bitmaps.mean(parts)

    def of_vector(self, root: Element, shown: Shown) -> Drawable:
        """A vector: its size, and the colour of the path with the longest text."""
        if root.name == "animated-vector":
            return self.of_child(root, shown)
        theme = shown.theme
        paths = [it for it in root.walk() if it.name == "path"]
        filled = [it for it in paths if "android:fillColor" in it.attributes or "android:strokeColor" in it.attributes]
        largest = max(filled, key=length_of_path, default=None)
        colour: Optional[int] = None
        if largest is not None:
            key = "android:fillColor" if "android:fillColor" in largest.attributes else "android:strokeColor"
            colour = self.colour(largest, key, theme)
        size = self.length(root, "width", theme, -1), self.length(root, "height", theme, -1)
        return Drawable(colour, *size, None, ("a vector as the colour of its largest path",))


"""A view on its way to the output: its attributes by type, what was used of them, and what is written for it."""
import struct
from dataclasses import dataclass, field
from fractions import Fraction
from typing import Any, Callable, Dict, FrozenSet, List, NamedTuple, Optional, Set

from ..common.failures import Failure
from ..layouts import attributes as known
from ..layouts import documents
from ..layouts.attributes import Form
from ..resources.resources import Resources
from ..resources.themes import Theme
from ..resources.values import Type, Value
from .app_files import name_of_missing
from .drawables import NOTHING, Drawable, Drawables, pixels
from .expansion import View
from .report import Effect, Fate, Note, Record
from .styles import Attributes, Found, Lookup

MATCH, WRAP = -1, -2
WORD = 0xFFFFFFFF
MAX_SIZE = 16777215
MAX_MARGIN = 1048575
MAX_WEIGHT = 65535
MAX_TEXT = 32767
SIZES = ("layout_width", "layout_height")
# the keys of attributes by their names: most are looked for, and not there, so that to make the key would take longest
KEYS: Dict[str, str] = {}
# the reason of a note on a value of another type
UNFIT = "its value is of a type that it cannot have"


def keys_of(names: str) -> FrozenSet[str]:
    """The keys of attributes of Android by their names."""
    return frozenset("android:" + it for it in names.split(" "))


@dataclass
class Node:
    """An element of the output: one of the six classes, its attributes by their names, and the row of its source."""

    kind: str
    attributes: Dict[str, documents.Value] = field(default_factory=dict)
    children: List["Node"] = field(default_factory=list)
    record: Optional[Record] = None
    is_added: bool = False
    # of a group whose children are placed by what the program measures, what does so: a placing.Maker
    placed: Optional[Callable[["Node", Any], Any]] = None


class App(NamedTuple):
    """What all views of an app have in common."""

    resources: Resources
    lookup: Lookup
    drawables: Drawables

    @property
    def density(self) -> int:
        """Dots an inch of the screen on which the layouts are laid out."""
        return self.drawables.density


def whole(number: int) -> documents.Value:
    """A whole number of the output."""
    return documents.Value(documents.WHOLE, number & WORD)


def length_of(number: int) -> documents.Value:
    """A length of the output, in pixels."""
    return documents.Value(documents.DIMENSION, (number & 0xFFFFFF) << 8)


def boolean_of(value: bool) -> documents.Value:
    """A boolean of the output."""
    return documents.Value(documents.BOOLEAN, WORD if value else 0)


def colour_of(word: int) -> documents.Value:
    """A colour of the output."""
    return documents.Value(documents.COLOURS[0], word & WORD)


def text_of(text: str) -> documents.Value:
    """A text of the output."""
    return documents.Value(documents.STRING, 0, text)


def words_of(value: Value, words: Dict[str, int]) -> Optional[int]:
    """A whole number, a boolean, or words joined by `|`."""
    if value.is_int or value.is_boolean:
        return value.number()
    if value.text is None:
        return None
    found = 0
    for it in value.text.split("|"):
        if it.strip() not in words:
            return None
        found |= words[it.strip()]
    return found


def flags_of(value: Value, flags: Dict[str, int]) -> Optional[int]:
    """Flags joined by `|`, or none of them."""
    return 0 if value.text is not None and not value.text.strip() else words_of(value, flags)


class Draft:
    """A view that is mapped: reads its attributes, and takes what is written."""

    def __init__(self, view: View, app: App, class_styles: List[str], parent: str):
        self.view, self.app, self.record, self.parent = view, app, view.record, parent
        self.own = view.attributes
        self.attributes = Attributes(view.attributes, view.theme, app.lookup, class_styles)
        # what was found of attributes that the element does not have itself
        self.found = self.attributes.shared.found
        self.node = Node("View", record=view.record)
        # the class that the row says, and the attributes that were looked for
        self.kind = "View"
        self.read: Set[str] = set()
        if "style" in view.attributes:
            self.record.use("style")
            self.check_parents("style", view.attributes["style"], Effect.BOUNDS)
        for why in self.attributes.broken:
            self.record.leave_out("style", why, Effect.BOUNDS)
        self.check_library(class_styles)

    def check_parents(self, key: str, value: Value, effect: Effect) -> None:
        """Says of a style that a parent of it is not there."""
        try:
            missing = self.app.lookup.missing_parent(value, self.theme)
        except Failure:
            return
        if missing:
            name = self.named(Value(Type.REFERENCE, missing))
            effect = Effect.TEXT if "TextAppearance" in name else effect
            self.record.approximate(key, "its parent %s is not in the resources" % name, effect)

    def check_library(self, class_styles: List[str]) -> None:
        """Says that the style of the class is in a library that is not there."""
        if self.app.lookup.lacks_library and class_styles and class_styles[0].startswith("app:"):
            if not self.attributes.class_key.startswith("app:"):
                what = self.attributes.class_key or "none"
                why = "the style of its class, %s, is in a library that is not there: %s here" % (class_styles[0], what)
                self.record.approximate("", why, Effect.BOUNDS)

    @property
    def theme(self) -> Theme:
        """The theme of the view."""
        return self.view.theme

    def use(self, key: str) -> None:
        """Marks an attribute of the element itself as used."""
        self.read.add(key)
        if key in self.own:
            self.record.use(key)

    def lacks(self, keys: FrozenSet[str]) -> bool:
        """Whether none of some attributes has a value, which is sooner known of all than of each. They count as looked
        for then."""
        if not self.attributes.lacks(keys):
            return False
        self.read.update(keys)
        return True

    def find(self, key: str) -> Optional[Found]:
        """The value of an attribute, which is used."""
        self.read.add(key)
        if key in self.own:
            self.record.use(key)
        elif key in self.found:
            return self.found[key]
        return self.attributes.find(key)

    def value(self, name: str, effect: Effect = Effect.BOUNDS) -> Optional[Value]:
        """The value of an attribute `android:NAME` or of a whole key; one that cannot be resolved is reported."""
        key = KEYS.get(name) or KEYS.setdefault(name, name if ":" in name else "android:" + name)
        if key not in self.own and self.found.get(key, self) is None:
            self.read.add(key)
            return None
        found = self.find(key)
        if found is None:
            return None
        self.check_stand_in(key, found.given, effect)
        if not found.is_resolved:
            what = "the theme has no such attribute" if found.value.is_attribute else "the resource is not there"
            self.record.leave_out(key, found.why or "%s (%s)" % (what, self.named(found.value)), effect)
            return None
        return found.value

    def check_stand_in(self, key: str, given: Value, effect: Effect) -> None:
        """Says of a value by an attribute of a library that is not there that it is that of Android."""
        name = self.app.lookup.stand_ins.get(given.data) if given.is_attribute else None
        if name:
            why = "?%s of a library that is not there: ?android:%s here" % (name, name)
            self.record.approximate(key, why, Effect.CONTENT if effect is Effect.BOUNDS else effect)

    def named(self, value: Value) -> str:
        """The name of what a reference names, or its number."""
        name = self.app.resources.name(value.data)
        sign = "?" if value.is_attribute else "@"
        plain = "%s:%s/%s" % name if name else name_of_missing(self.app.drawables.files, value.data)
        return sign + (plain or "%08x" % value.data)

    def length(self, name: str) -> Optional[int]:
        """A length in pixels."""
        value = self.value(name)
        if value is None or value.is_null:
            return None
        found = pixels(value, self.app.density)
        if found is None:
            self.unfit(name)
        return found

    def unfit(self, name: str, effect: Effect = Effect.BOUNDS) -> None:
        """An attribute has a value of another type."""
        key = name if ":" in name else "android:" + name
        self.record.leave_out(key, UNFIT, effect)

    def number(self, name: str, words: Dict[str, int], effect: Effect = Effect.BOUNDS) -> Optional[int]:
        """A whole number, or words that mean one."""
        return self.meant(name, lambda value: words_of(value, words), effect)

    def flags(self, name: str, flags: Dict[str, int]) -> Optional[int]:
        """A whole number, or flags that mean one."""
        return self.meant(name, lambda value: flags_of(value, flags), Effect.BOUNDS)

    def meant(self, name: str, meaning: Callable[[Value], Optional[int]], effect: Effect) -> Optional[int]:
        """The number that an attribute means; nothing where it has none, or where its value does not fit."""
        value = self.value(name, effect)
        if value is None or value.is_null:
            return None
        found = meaning(value)
        if found is None:
            self.unfit(name, effect)
        return found

    def boolean(self, name: str, effect: Effect = Effect.BOUNDS, otherwise: bool = False) -> bool:
        """A boolean."""
        value = self.value(name, effect)
        if value is None or value.is_null:
            return otherwise
        if value.text in ("true", "false"):
            return value.text == "true"
        return value.data != 0

    def float(self, name: str) -> Optional[float]:
        """A number."""
        value = self.value(name)
        if value is None:
            return None
        if value.type == Type.FLOAT:
            return value.real()
        if value.is_int:
            return float(value.number())
        self.unfit(name)
        return None

    def text(self, name: str) -> Optional[str]:
        """A text; numbers are written as such."""
        value = self.value(name, Effect.BOUNDS)
        if value is None or value.is_null:
            return None
        if value.is_string:
            return value.text or ""
        if value.is_int:
            return str(value.number())
        return "" if value.is_empty else None

    def drawables(self) -> Drawables:
        """The drawables in the states of the view."""
        found = self.attributes.find("android:checked")
        is_checked = found is not None and (found.value.text == "true" if found.value.text else found.value.data != 0)
        return self.app.drawables.checked() if is_checked else self.app.drawables

    def drawable(self, name: str, effect: Effect = Effect.BOUNDS) -> Drawable:
        """A drawable; what is not exact of it is noted."""
        key = name if ":" in name else "android:" + name
        found = self.find(key)
        if found is None or found.value.is_null:
            return NOTHING
        made = self.drawables().of(found.given, self.theme)
        self.check_stand_in(key, found.given, effect)
        for why in dict.fromkeys(made.picture):
            self.record.approximate(key, why, Effect.PICTURE)
        for why in dict.fromkeys(made.bounds) if effect is Effect.BOUNDS else ():
            self.record.approximate(key, why, Effect.CONTENT)
        return made

    def colour(self, name: str) -> Optional[int]:
        """A colour; that of a list is the one of the states that are shown."""
        key = name if ":" in name else "android:" + name
        found = self.find(key)
        if found is None or found.value.is_null:
            return None
        made = self.drawables().of(found.given, self.theme)
        self.check_stand_in(key, found.given, Effect.PICTURE)
        if made.colour is None:
            self.record.leave_out(key, "; ".join(made.picture) or "the colour is not known", Effect.PICTURE)
        return made.colour

    def place_differently(self, key: str, why: str, is_left_out: bool = False) -> None:
        """Says that the children are placed otherwise than in Android: of each, and of the view itself."""
        fate = Fate.LEFT_OUT if is_left_out else Fate.APPROXIMATED
        self.record.note(Note(key, fate, Effect.CONTENT, why))
        for child in self.view.children:
            child.record.approximate("", "in a %s: %s" % (self.record.row, why), Effect.BOUNDS)

    # what is written

    def put(self, name: str, value: documents.Value) -> None:
        """Writes an attribute."""
        self.node.attributes[name] = value

    def put_direct(self, name: str) -> None:
        """Writes an attribute with the value that it has, in the form that the program takes."""
        value = self.value(name)
        if value is None:
            return
        form = known.KNOWN[name].form
        made = fitted(name, form, value)
        if made is None:
            if not value.is_null:
                self.unfit(name)
            return
        self.put(name, made)

    def put_reference(self, name: str) -> None:
        """Writes an id, or a rule that names one."""
        found = self.find("android:" + name)
        if found is None or found.given.is_null:
            return
        value = found.given
        if value.is_attribute:
            item = self.theme.item(value.data)
            value = item.value if item else value
        if not value.is_reference:
            self.unfit(name)
            return
        self.put(name, documents.Value(documents.REFERENCE, value.data))


def fitted(name: str, form: Form, value: Value) -> Optional[documents.Value]:
    """A value in the form that the program takes for an attribute; nothing where it has none."""
    if form is known.SIZE:
        return size_of(value)
    if form is known.DIMENSION:
        return dimension_of(name, value)
    if form is known.BOOLEAN:
        if value.is_boolean or value.is_int:
            return boolean_of(value.data != 0)
        return boolean_of(value.text == "true") if value.text in ("true", "false") else None
    if form is known.FLOAT:
        return float_of(value)
    if form.flags:
        found = flags_of(value, form.flags)
    else:
        found = words_of(value, form.words) if form.words else None
    if found is None or (form.words and found not in form.words.values()):
        return None
    return whole(found)


def size_of(value: Value) -> Optional[documents.Value]:
    """A width or a height: a length, or -1 and -2, also as pixels, as the framework has it."""
    if value.type == Type.DIMENSION:
        amount = value.complex().amount
        if amount < 0:
            return whole(int(amount)) if amount in (MATCH, WRAP) else None
        return documents.Value(documents.DIMENSION, value.data)
    found = words_of(value, known.SIZES)
    return whole(min(found, MAX_SIZE)) if found is not None and found >= WRAP else None


def dimension_of(name: str, value: Value) -> Optional[documents.Value]:
    """A margin, which may be below 0, a padding, or a least size."""
    is_margin = name.startswith("layout_margin")
    if value.type == Type.DIMENSION:
        amount = value.complex().amount
        is_fit = abs(amount) <= Fraction(MAX_MARGIN, 64) and (is_margin or amount >= 0)
        return documents.Value(documents.DIMENSION, value.data) if is_fit else None
    if value.is_int and (0 <= value.number() or is_margin) and abs(value.number()) <= MAX_MARGIN:
        return length_of(value.number())
    return None


def float_of(value: Value) -> Optional[documents.Value]:
    """A weight, which is not below 0."""
    if value.type == Type.FLOAT:
        number = value.real()
        return documents.Value(documents.FLOAT, value.data) if 0 <= number <= MAX_WEIGHT else None
    if value.is_int and 0 <= value.number() <= MAX_WEIGHT:
        (word,) = struct.unpack("<I", struct.pack("<f", value.number()))
        return documents.Value(documents.FLOAT, word)
    return None


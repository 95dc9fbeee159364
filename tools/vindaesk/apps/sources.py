"""The elements that made the views of a layout of an app, with all their attributes: as they are written, and as they
are resolved through resources, styles and the theme."""
from typing import Dict, List, Optional, Tuple

from ..common.failures import Failure
from ..layouts import attributes as known
from ..layouts import values as texts
from ..layouts.documents import ANDROID
from ..layouts.documents import Value as DocumentValue
from ..resources.resources import Resources
from ..resources.values import Value, write_value
from ..scripts.resource_names import Names
from ..views.facts import Attribute, Place, Source
from .app import Screen
from .platform_names import ID_NAME_OF
from .report import Effect, Record
from .styles import Attributes, Lookup, Origin

NO_NAMES = Names()
ORIGINS = {Origin.OWN: "element", Origin.STYLE: "style", Origin.CLASS: "class style", Origin.THEME: "theme"}
# what a text has by its text appearance, where no attribute and no style of its own has it
OF_APPEARANCE = ("android:textSize", "android:textStyle", "android:textColor")
APPEARANCE = "android:textAppearance"


class Describer:
    """Writes values of an app as sources have them."""

    def __init__(self, resources: Resources):
        self.resources = resources
        self.lookup = Lookup(resources)
        self.words: Dict[str, Dict[str, int]] = {}
        # what was written before: most elements of a layout have the style of their class
        self.names: Dict[Tuple[int, str], str] = {}
        self.of_styles: Dict[Tuple[str, Value, int], Attribute] = {}

    def words_of(self, key: str) -> Dict[str, int]:
        """The words that an attribute takes, with their numbers; none where its definition is not there."""
        if key not in self.words:
            number = self.lookup.number(key)
            bag = self.resources.bag(number) if number else None
            names = {self.resources.name(at): word for at, word in bag.format().words.items()} if bag else {}
            self.words[key] = {name.entry: word for name, word in names.items() if name}
        return self.words[key]

    def name(self, number: int, sign: str) -> str:
        """The name of a resource, or of an attribute of the theme, as a source has it."""
        if (number, sign) not in self.names:
            self.names[number, sign] = self.new_name(number, sign)
        return self.names[number, sign]

    def new_name(self, number: int, sign: str) -> str:
        """The same of one that was not asked for before."""
        found = self.resources.name(number)
        if found is None:
            is_known = sign == "@" and number in ID_NAME_OF
            return "@android:id/" + ID_NAME_OF[number] if is_known else "%s0x%08x" % (sign, number)
        package = "android:" if found.package == "android" else ""
        kind = "" if sign == "?" else found.type + "/"
        return "%s%s%s%s" % (sign, package, kind, found.entry)

    def text(self, key: str, value: Value) -> str:
        """A value of an attribute."""
        if value.is_string:
            return value.text or ""
        if value.is_reference or value.is_attribute:
            return self.name(value.data, "?" if value.is_attribute else "@")
        prefix, _, plain = key.rpartition(":")
        if prefix == "android" and plain in known.KNOWN or not value.is_int:
            namespace = ANDROID if prefix == "android" else ""
            found = texts.shown(DocumentValue(value.type, value.data, value.text), known.form_of(namespace, plain), NO_NAMES)
            return found if found is not None else write_value(value)
        words = self.words_of(key) if value.is_int else {}
        same = next((word for word, at in words.items() if at == value.data), None)
        return same or (known.flags_text(value.data, words) if words else None) or write_value(value)

    def attribute(self, key: str, value: Value, written: Optional[str], values: Attributes) -> Attribute:
        """An attribute with its value, and the text that a source has for it."""
        text = self.text(key, value) if written is None else written
        try:
            end, way = self.resources.follow(value, values.theme)
        except Failure:
            return Attribute(text, text)
        names = [self.name(it, "?" if value.is_attribute and place == 0 else "@") for place, it in enumerate(way)]
        is_id = bool(names) and names[-1].startswith(("@id/", "@android:id/"))
        return Attribute(text, names[-1] if is_id else self.text(key, end), tuple(names))

    def all_of(self, record: Record) -> Dict[str, Attribute]:
        """The attributes of an element, with those of its styles and of its text appearance."""
        values = record.values
        if values is None:
            return {}
        found: Dict[str, Attribute] = {}
        for key, value in values.own.items():
            is_given = key in record.given
            made = self.attribute(key, value, None if is_given else record.written.get(key), values)
            found[key] = made if not is_given else Attribute(made.written, made.resolved, made.resources, "include")
        for origin, items in ((Origin.STYLE, values.style), (Origin.CLASS, values.class_style)):
            for number, item in items.items():
                self.add(found, values.lookup.key(number), item.value, (ORIGINS[origin], values))
        self.add_appearance(found, values)
        return found

    def add(self, found: Dict[str, Attribute], key: str, value: Value, where: Tuple[str, Attributes]) -> None:
        """Adds an attribute of a style, where no nearer one has it."""
        if key and key not in found and not value.is_unset:
            known_as = (key, value, id(where[1].theme))
            made = self.of_styles.get(known_as) or self.attribute(key, value, None, where[1])
            self.of_styles[known_as] = made
            found[key] = Attribute(made.written, made.resolved, made.resources, where[0])

    def add_appearance(self, found: Dict[str, Attribute], values: Attributes) -> None:
        """Adds what the text appearance says."""
        is_text = "android:text" in found or "android:hint" in found
        given = values.given(APPEARANCE) if is_text else None
        items = values.items_of(given[0]) if given and not given[0].is_null else {}
        for key in OF_APPEARANCE:
            item = items.get(values.lookup.number(key) or 0)
            if item is not None:
                self.add(found, key, item.value, ("text appearance", values))


def source_of(record: Record, describer: Describer, is_added: bool) -> Source:
    """What made a view."""
    places: List[Place] = [Place(record.file, record.line, record.column), *record.includes]
    return Source(
        record.element, tuple(places), describer.all_of(record), record.ignored, is_added, record.is_exact,
        not record.has_effect(Effect.PICTURE),
    )


def of_screen(screen: Screen) -> Dict[int, Source]:
    """What made the views of a layout, by their numbers. The window's content around a layout has nothing."""
    found: Dict[int, Source] = {}
    if screen.resources is None:
        return found
    describer = Describer(screen.resources)
    for record in screen.records:
        if record.number:
            found[record.number] = source_of(record, describer, False)
        for number in record.added:
            found[number] = source_of(record, describer, True)
    return found

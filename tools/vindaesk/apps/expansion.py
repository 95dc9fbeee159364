"""The elements of a layout as the views that the inflater makes of them: `include`, `merge`, `ViewStub`, `view`,
`fragment`, `requestFocus`, `tag`, and the `layout` of data binding are put in place or passed over."""
import re
from dataclasses import dataclass, field
from typing import Dict, FrozenSet, List, NamedTuple, Optional, Tuple

from ..common.failures import WRONG, Failure
from ..common.messages import printable
from ..resources.resources import File, Resources
from ..resources.themes import Theme
from ..resources.values import Value
from ..views import facts
from .app_files import AppFiles
from .effects import effect_of
from .element import Element
from .report import Effect, Record
from .styles import Lookup

MAX_INCLUDES = 32
# elements with those that are included, how deep they are in one another, and the views that the program takes
MAX_ELEMENTS = 16384
MAX_DEPTH = 64
MAX_VIEWS = 4096
WITHOUT_VIEW = {
    "requestFocus": "the view around it gets the focus",
    "tag": "a tag is for the code of the app",
    "data": "the variables of data binding are for the code of the app",
}
STUBS = ("ViewStub", "androidx.appcompat.widget.ViewStubCompat", "android.support.v7.widget.ViewStubCompat")
# attributes for design tools that replace no other
OF_DESIGN = {"tools:listitem", "tools:layout", "tools:context", "tools:ignore", "tools:targetApi", "tools:showIn",
             "tools:itemCount", "tools:locale", "tools:menu", "tools:parentTag", "tools:viewBindingIgnore"}
# what an `include` gives to the view in its place
OVERRIDDEN = ("android:id", "android:visibility")


@dataclass
class View:
    """A view of a layout before it is mapped: the name of its class, its attributes with those of an `include` over
    them, the theme that it is in, and what is reported of it."""

    name: str
    attributes: Dict[str, Value]
    theme: Theme
    record: Record
    parent: Optional["View"] = None
    children: List["View"] = field(default_factory=list)
    # whether its width and its height depend on its content, once it is mapped
    by_content: Tuple[bool, bool] = (False, False)


class Place(NamedTuple):
    """Where elements are expanded: the file, the files around it that include it, the theme, the view around, how deep
    they are, the elements that include the file, from the innermost, and the rules of lint that are passed over."""

    file: File
    chain: Tuple[str, ...]
    theme: Theme
    parent: Optional[View]
    depth: int = 0
    includes: Tuple[facts.Place, ...] = ()
    ignored: FrozenSet[str] = frozenset()

    def within(self, element: Element) -> Tuple[facts.Place, ...]:
        """The elements that include a file which an element names."""
        return (facts.Place(self.file.path, element.line, element.column), *self.includes)


class Options(NamedTuple):
    """What is expanded: with `design` the attributes of the namespace `tools` too; with `stubs` the layouts of
    ViewStubs; and how many items a list has."""

    design: bool = False
    stubs: bool = False
    items: int = 3


class Expansion:
    """Expands the layouts of an app."""

    def __init__(self, files: AppFiles, resources: Resources, lookup: Lookup, options: Options):
        self.files, self.resources, self.lookup, self.options = files, resources, lookup, options
        self.records: List[Record] = []
        self.views = 0
        self.first = ""

    def layout(self, file: File, theme: Theme) -> List[View]:
        """The views of a layout file, more than one where its root is a `merge`."""
        self.records, self.views, self.first = [], 0, printable(file.path)
        return self.of_file(Place(file, (), theme, None), {})

    def of_file(self, place: Place, given: Dict[str, Value]) -> List[View]:
        """The views of a file; its root gets attributes that are given."""
        path = place.file.path
        if path in place.chain:
            raise Failure("the layouts include one another in a circle: %s" % " > ".join((*place.chain, path)), WRONG)
        if len(place.chain) >= MAX_INCLUDES:
            raise Failure("layouts include one another more than %d deep: %s" % (MAX_INCLUDES, path), WRONG)
        root = self.files.document(path, place.file.source)
        if root is None:
            raise Failure("%s is not in the app" % path, WRONG)
        inner = place._replace(chain=(*place.chain, path))
        if root.name == "layout":
            self.without_view(root, inner, "the layout of data binding is that of the element in it")
            found = [it for it in root.children if it.name != "data"]
            for it in root.children:
                if it.name == "data":
                    self.skip(it, inner, WITHOUT_VIEW["data"])
            return [view for it in found for view in self.element(it, inner, given)]
        return self.element(root, inner, given)

    def record(self, element: Element, place: Place) -> Record:
        """A new row of the report."""
        if len(self.records) >= MAX_ELEMENTS:
            raise Failure("%s: it has more than %d elements, with those that it includes" % (self.first, MAX_ELEMENTS), WRONG)
        if place.depth > MAX_DEPTH:
            raise Failure("%s: its elements are more than %d deep, with those that it includes" % (self.first, MAX_DEPTH), WRONG)
        keys = (*element.attributes, *element.unbound)
        made = Record(element.name, place.file.path, element.line, element.column, keys)
        made.written, made.includes, made.ignored = element.written, place.includes, place.ignored
        for key in element.repeated:
            made.leave_out(key, "an attribute of this name came before", Effect.NONE)
        for key in element.bound:
            self.say_bound(made, key, key in element.unbound)
        self.records.append(made)
        return made

    @staticmethod
    def say_bound(record: Record, key: str, has_no_default: bool) -> None:
        """Says of an attribute with a value by data binding what is taken for it."""
        if has_no_default:
            record.leave_out(key, "a value by data binding without a default", effect_of(key))
        else:
            record.approximate(key, "a value by data binding: its default is taken", effect_of(key))

    def without_view(self, element: Element, place: Place, why: str) -> Record:
        """An element that makes no view."""
        record = self.record(element, place)
        record.why_no_view = why
        for key in element.attributes:
            record.no_effect(key, why)
        return record

    def skip(self, element: Element, place: Place, why: str) -> None:
        """An element that makes no view, and neither does anything in it."""
        for it in element.walk():
            self.without_view(it, place, why)

    def element(self, element: Element, place: Place, given: Dict[str, Value]) -> List[View]:
        """The views of an element."""
        place = place._replace(depth=place.depth + 1, ignored=place.ignored | ignored_by(element))
        if element.name in WITHOUT_VIEW:
            self.skip(element, place, WITHOUT_VIEW[element.name])
            return []
        if element.name == "include":
            return self.include(element, place)
        if element.name in STUBS and self.options.stubs:
            return self.stub(element, place)
        if element.name == "merge":
            self.without_view(element, place, "the elements in a merge are put in its place")
            return [view for it in element.children for view in self.element(it, place, {})]
        return [self.view(element, place, given)]

    def themed(self, attributes: Dict[str, Value], place: Place, record: Record) -> Theme:
        """The theme of an element and of what is in it."""
        for key in ("android:theme", "app:theme"):
            value = attributes.get(key)
            if value is None:
                continue
            record.use(key)
            number = self.lookup.style_number(value, place.theme)
            if number is not None and self.resources.bag(number) is not None:
                return self.lookup.overlaid(place.theme, number)
            if not value.is_null:
                record.leave_out(key, "the theme is not in the resources", Effect.BOUNDS)
        return place.theme

    def view(self, element: Element, place: Place, given: Dict[str, Value]) -> View:
        """The view of an element, with those in it."""
        record = self.record(element, place)
        self.views += 1
        if self.views > MAX_VIEWS:
            raise Failure("%s: it has more than %d views, with those that it includes" % (self.first, MAX_VIEWS), WRONG)
        attributes = self.merged(element.attributes, given, record)
        record.given = given
        if self.options.design:
            self.put_design(attributes, record)
        name = element.name
        if name == "view" and "class" in attributes and attributes["class"].text:
            record.use("class")
            name = attributes["class"].text or name
        theme = self.themed(attributes, place, record)
        made = View(name, attributes, theme, record, place.parent)
        inner = place._replace(theme=theme, parent=made)
        made.children = [view for it in element.children for view in self.element(it, inner, {})]
        if self.options.design:
            made.children += self.design_children(element, inner, record)
        return made

    @staticmethod
    def put_design(attributes: Dict[str, Value], record: Record) -> None:
        """Has attributes for design tools replace those of Android."""
        for key in [it for it in attributes if it.startswith("tools:") and it not in OF_DESIGN]:
            own = "android:" + key[len("tools:") :]
            if own in attributes and own in record.keys:
                record.no_effect(own, "the one for design tools replaces it")
            attributes[own] = attributes[key]
            record.use(key)

    def design_children(self, element: Element, place: Place, record: Record) -> List[View]:
        """The items of a list, and the layout of a fragment, that design tools show."""
        found: List[View] = []
        for key, count in (("tools:listitem", self.options.items), ("tools:layout", 1)):
            file = self.layout_of(key, element, place)
            if key not in element.attributes:
                continue
            if file is None:
                record.leave_out(key, "the layout is not in the app", Effect.BOUNDS)
                continue
            record.use(key)
            for _ in range(count):
                found += self.of_file(place._replace(file=file, includes=place.within(element)), {})
        return found

    def stub(self, element: Element, place: Place) -> List[View]:
        """The views of the layout of a ViewStub, which takes its place."""
        file = self.layout_of("android:layout", element, place)
        if file is None:
            return [self.view(element, place, {})]
        record = self.record(element, place)
        record.why_no_view = "its layout is put in its place"
        given: Dict[str, Value] = {}
        for key, value in element.attributes.items():
            record.use(key)
            if key.startswith("android:layout_"):
                given[key] = value
            elif key == "android:inflatedId":
                given["android:id"] = value
            elif key not in ("android:layout", "android:theme"):
                record.no_effect(key, "the layout that takes its place does not have it")
        theme = self.themed(element.attributes, place, record)
        return self.of_file(place._replace(file=file, theme=theme, includes=place.within(element)), given)

    def merged(self, own: Dict[str, Value], given: Dict[str, Value], record: Record) -> Dict[str, Value]:
        """The attributes of an element with those of an `include` over them: where this has a width and a height, no
        layout attribute of the element counts."""
        is_placed = {"android:layout_width", "android:layout_height"} <= set(given)
        found = dict(own)
        for key in own:
            if is_placed and key.startswith(("android:layout_", "app:layout_")) and key not in given:
                record.no_effect(key, "the include has a width and a height, so this does not count")
                del found[key]
            elif key in given:
                record.no_effect(key, "the include has another one")
        found.update(given)
        return found

    def layout_of(self, key: str, element: Element, place: Place) -> Optional[File]:
        """The layout file that an attribute names."""
        value = element.attributes.get(key)
        try:
            resolved = self.resources.resolve(value, place.theme) if value else None
        except Failure:
            return None
        if resolved is None or not resolved.is_string or resolved.text is None:
            return None
        return File(resolved.text, resolved.source) if self.files.has(resolved.text, resolved.source) else None

    def include(self, element: Element, place: Place) -> List[View]:
        """The views in the place of an `include`."""
        record = self.record(element, place)
        record.why_no_view = "the layout that it names is put in its place"
        file = self.layout_of("layout", element, place)
        if file is None:
            record.why_no_view = "its layout is not in the app"
            record.leave_out("layout", "the layout is not in the app", Effect.BOUNDS)
            if place.parent is not None:
                why = "the include in line %d is left out: its layout is not in the app" % element.line
                place.parent.record.leave_out("", why, Effect.BOUNDS)
            return []
        record.use("layout")
        theme = self.themed(element.attributes, place, record)
        given = self.overrides(element, record)
        root = self.files.document(*file)
        if root is not None and root.name == "merge":
            for key in given:
                record.no_effect(key, "the layout has a merge as its root, so this does not count")
            given = {}
        return self.of_file(place._replace(file=file, theme=theme, includes=place.within(element)), given)

    @staticmethod
    def overrides(element: Element, record: Record) -> Dict[str, Value]:
        """What an `include` gives to the root of its layout: its id and its visibility, and where it has a width and a
        height all layout attributes."""
        found: Dict[str, Value] = {}
        is_placed = {"android:layout_width", "android:layout_height"} <= set(element.attributes)
        for key, value in element.attributes.items():
            if key.startswith(("android:layout_", "app:layout_")):
                if is_placed:
                    found[key] = value
                    record.use(key)
                else:
                    record.no_effect(key, "an include without a width and a height does not place its layout")
            elif key in OVERRIDDEN:
                found[key] = value
                record.use(key)
            elif key not in record.fates and not key.startswith("tools:"):
                record.no_effect(key, "an include has no such attribute")
        return found


def ignored_by(element: Element) -> FrozenSet[str]:
    """The rules of lint that an element and what is in it are to be passed over by."""
    value = element.attributes.get("tools:ignore")
    return frozenset(it for it in re.split("[ ,]+", value.text or "") if it) if value else frozenset()

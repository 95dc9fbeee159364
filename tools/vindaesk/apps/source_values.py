"""The resources in values files of a source: texts, colours, lengths, styles, arrays and attributes."""
import re
from typing import Iterator, List, NamedTuple, Optional

from ..common.failures import Failure
from ..resources.values import Type, Value
from . import source_xml
from .element import Element
from .platform_names import NUMBER_OF
from .source_xml import Names, Unbound
from .table_writer import Bag, Content

PLAIN = {"dimen", "color", "bool", "integer", "fraction", "drawable", "item", "mipmap"}
ARRAYS = {"array", "string-array", "integer-array"}
# the keys of the items of an array, and of a plural
ARRAY_KEY = 0x02000000
PLURALS = {"other": 0x01000004, "zero": 0x01000005, "one": 0x01000006, "two": 0x01000007, "few": 0x01000008,
           "many": 0x01000009}
FORMAT_KEY = 0x01000000
ANY_FORMAT = 0xFFFF
QUOTED = re.compile(r'\\.|"|\s+', re.DOTALL)
STYLE_NAME = re.compile(r"@?(?:([A-Za-z_][\w.]*):)?(?:style/)?([\w.$-]+)", re.ASCII)


class Entry(NamedTuple):
    """A resource: its type, its name, and what it holds; the line in its file."""

    kind: str
    name: str
    content: Optional[Content]
    line: int


def text_of(text: str) -> str:
    """A text as the build tools take it: blanks count as one, but not in quotation marks; escapes are put in place."""
    is_quoted = False

    def meant(found: "re.Match[str]") -> str:
        nonlocal is_quoted
        if found[0] == '"':
            is_quoted = not is_quoted
            return ""
        return found[0] if is_quoted or not found[0].isspace() else " "

    return source_xml.escaped(QUOTED.sub(meant, text.strip()))


def item_value(element: Element, key: str, names: Names) -> Value:
    """The value of an item."""
    try:
        return source_xml.value_of(element.text.strip(), key, names)
    except Unbound:
        return Value(Type.STRING, 0, element.text)


def string_value(element: Element, names: Names) -> Value:
    """The value of a text, which may be a reference."""
    plain = element.text.strip()
    found = source_xml.reference(plain, names) if plain[:1] in ("@", "?") else None
    return found or Value(Type.STRING, 0, text_of(element.text))


def attribute_number(name: str, names: Names) -> int:
    """The number of an attribute that an item of a style names."""
    package, _, plain = name.rpartition(":")
    if package == "android" and plain in NUMBER_OF:
        return NUMBER_OF[plain]
    return names.id_of(package, "attr", plain, not package)


def parent_of(element: Element, names: Names) -> int:
    """The id of the parent of a style: the one that it names, or that of the name before its last point."""
    name, given = named(element), element.attributes.get("parent")
    if given is not None:
        found = STYLE_NAME.fullmatch((given.text or "").strip())
        return names.id_of(found[1] or "", "style", found[2], False) if found and given.text else 0
    around = name.rpartition(".")[0]
    return names.id_of("", "style", around, False) if around else 0


def style_of(element: Element, names: Names) -> Bag:
    """A style."""
    items = []
    for it in element.children:
        if it.name == "item" and named(it):
            key = named(it) if ":" in named(it) else "app:" + named(it)
            items.append((attribute_number(named(it), names), item_value(it, key, names)))
    return Bag(parent_of(element, names), items)


def named(element: Element) -> str:
    """The name of a resource or of an item."""
    found = element.attributes.get("name")
    return (found.text or "").strip() if found is not None else ""


def array_of(element: Element, names: Names) -> Bag:
    """An array."""
    read = string_value if element.name == "string-array" else lambda it, to: item_value(it, "", to)
    found = [read(it, names) for it in element.children if it.name == "item"]
    return Bag(0, [(ARRAY_KEY + index, it) for index, it in enumerate(found)])


def plural_of(element: Element, names: Names) -> Bag:
    """A text that depends on a number."""
    items = []
    for it in element.children:
        quantity = it.attributes.get("quantity")
        if quantity is not None and quantity.text in PLURALS:
            items.append((PLURALS[quantity.text], string_value(it, names)))
    return Bag(0, items)


def entry_of(element: Element, names: Names) -> Optional[Entry]:
    """The resource of an element; nothing where it is none that layouts need."""
    name, kind = named(element), element.name
    if kind == "item":
        given = element.attributes.get("type")
        kind = (given.text or "") if given is not None else ""
    if not name or not kind:
        return None
    if kind == "id":
        return Entry("id", name, None, element.line)
    if kind == "string":
        return Entry(kind, name, string_value(element, names), element.line)
    if kind == "style":
        return Entry(kind, name, style_of(element, names), element.line)
    if kind in ARRAYS:
        return Entry("array", name, array_of(element, names), element.line)
    if kind == "plurals":
        return Entry(kind, name, plural_of(element, names), element.line)
    if kind == "attr" and ":" not in name:
        return Entry(kind, name, Bag(0, [(FORMAT_KEY, Value(Type.INT_DEC, ANY_FORMAT))]), element.line)
    if kind in PLAIN or element.name == "item":
        return Entry(kind, name, item_value(element, "", names), element.line)
    return None


def elements_of(root: Element) -> Iterator[Element]:
    """The resources of a file, with the attributes of each `declare-styleable`."""
    for it in root.children:
        if it.name == "declare-styleable":
            yield from (below for below in it.children if below.name == "attr")
        else:
            yield it


def read(data: bytes, file: str, names: Names) -> List[Entry]:
    """The resources of a file."""
    root = source_xml.read(data, file, names, True)
    if root.name != "resources":
        raise Failure("%s: its outermost element is <%s>, not <resources>" % (file, root.name))
    return [it for it in (entry_of(element, names) for element in elements_of(root)) if it is not None]

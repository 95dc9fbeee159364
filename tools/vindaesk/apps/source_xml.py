"""Elements of resource files as people write them. Names of resources become ids; what is bound by data binding has its
default, if it says one."""
import re
from typing import Dict, List, Optional, Tuple
from xml.parsers import expat

from ..layouts import values as texts
from ..resources.values import Type, Value
from .element import MAX_ATTRIBUTES, Builder, Element, key_of, refusal

BETWEEN = "\n"
REFERENCE = re.compile(r"@(\+?)\*?(?:([A-Za-z_][\w.]*):)?(\w+)/([\w.$-]+)", re.ASCII)
THEMED = re.compile(r"\?\*?(?:([A-Za-z_][\w.]*):)?(?:attr/)?([\w.$-]+)", re.ASCII)
BOUND = re.compile(r"@=?\{.*\}", re.DOTALL)
DEFAULT = re.compile(r",\s*default\s*=\s*(.*?)\s*\}$", re.DOTALL)
# attributes whose text is never a number, a length or a colour
PLAIN_TEXTS = {
    "android:text", "android:hint", "android:contentDescription", "android:tag", "android:title", "android:textOn",
    "android:textOff", "android:name", "android:fontFamily", "android:digits", "android:pathData", "android:onClick",
    "app:title", "app:subtitle", "app:layout_constraintDimensionRatio", "app:constraint_referenced_ids", "class",
    "package", "android:stretchColumns", "android:shrinkColumns", "android:collapseColumns", "app:layout_behavior",
    "android:label",
}
MAX_TEXT = 1 << 16
# how long a value by data binding is, and a colour, a number or a length
MAX_BOUND = 1 << 12
MAX_TYPED = 64


class Names:
    """Gives the names of resources their ids."""

    def id_of(self, package: str, kind: str, name: str, is_new: bool) -> int:
        """The id of a name; one that is not there has an id too, by which no resource is found."""
        raise NotImplementedError


class Unbound(Exception):
    """A value that is bound by data binding, without a default."""


def reference(text: str, names: Names) -> Optional[Value]:
    """The value of a text that names a resource or an attribute of a theme."""
    if text in ("@null", "@empty"):
        return Value(Type.REFERENCE, 0) if text == "@null" else Value(Type.NULL, 1)
    found = REFERENCE.fullmatch(text)
    if found:
        return Value(Type.REFERENCE, names.id_of(found[2] or "", found[3], found[4], bool(found[1])))
    found = THEMED.fullmatch(text)
    return Value(Type.ATTRIBUTE, names.id_of(found[1] or "", "attr", found[2], False)) if found else None


def typed(text: str) -> Optional[Value]:
    """The value of a text that is a colour, a boolean, a number or a length."""
    try:
        for read in (texts.colour, texts.boolean, texts.whole, texts.dimension, texts.share, texts.real):
            found = read(text)
            if found is not None:
                return Value(found.kind, found.word)
    except (texts.Unfit, OverflowError):
        return None
    return None


def escaped(text: str) -> str:
    """A text without its escapes."""
    try:
        return texts.unescaped(text)
    except texts.Unfit:
        return text


def value_of(text: str, key: str, names: Names) -> Value:
    """The value of an attribute, or of an item of a style."""
    text = text[:MAX_TEXT]
    if len(text) <= MAX_BOUND and BOUND.fullmatch(text.strip()):
        default = DEFAULT.search(text.strip())
        if default is None:
            raise Unbound
        text = default[1].strip("\"'`")
    plain = text.strip()
    found = reference(plain, names) if plain[:1] in ("@", "?") else None
    if found is None and key not in PLAIN_TEXTS and len(plain) <= MAX_TYPED:
        found = typed(plain)
    return found or Value(Type.STRING, 0, escaped(text))


class Reader:
    """Reads a file."""

    def __init__(self, file: str, names: Names, keeps_text: bool):
        self.file, self.names, self.keeps_text = file, names, keeps_text
        self.builder = Builder(file)
        # the values that were read, by key and text: most are there many times
        self.values: Dict[Tuple[str, str], Value] = {}
        self.parser = parser = expat.ParserCreate(namespace_separator=BETWEEN)
        parser.ordered_attributes = True
        parser.buffer_text = True
        parser.StartElementHandler = self.start
        parser.EndElementHandler = self.end
        parser.StartDoctypeDeclHandler = self.doctype
        if keeps_text:
            parser.CharacterDataHandler = self.data

    def doctype(self, *_: object) -> None:
        """A document type."""
        raise refusal(self.file, "line %d: a resource file has no document type" % self.parser.CurrentLineNumber)

    def start(self, whole: str, pairs: List[str]) -> None:
        """An element begins."""
        if len(pairs) > 2 * MAX_ATTRIBUTES:
            raise refusal(self.file, "an element has more than %d attributes" % MAX_ATTRIBUTES)
        parser = self.parser
        element = Element(whole.rpartition(BETWEEN)[2], parser.CurrentLineNumber, parser.CurrentColumnNumber + 1)
        for name, text in zip(pairs[::2], pairs[1::2]):
            address, _, plain = name.rpartition(BETWEEN)
            key = key_of(address, plain)
            element.written.setdefault(key, text)
            if self.keeps_text:
                element.put(key, Value(Type.STRING, 0, text))
                continue
            try:
                if (key, text) not in self.values:
                    self.values[key, text] = value_of(text, key, self.names)
                element.put(key, self.values[key, text])
            except Unbound:
                element.unbound.append(key)
            if len(text) <= MAX_BOUND and BOUND.fullmatch(text.strip()):
                element.bound.append(key)
        self.builder.start(element)

    def end(self, _: str) -> None:
        """The innermost element ends."""
        self.builder.end()

    def data(self, text: str) -> None:
        """A text belongs to all elements around it."""
        for it in self.builder.open:
            it.text += text


def read(data: bytes, file: str, names: Names, keeps_text: bool = False) -> Element:
    """The outermost element of a file. With `keeps_text` all attributes are texts, and elements have the text in
    them."""
    reader = Reader(file, names, keeps_text)
    try:
        reader.parser.Parse(data, True)
    except expat.ExpatError as error:
        why = "line %d, column %d: %s" % (error.lineno, error.offset + 1, expat.ErrorString(error.code))
        raise refusal(file, "it is no XML: " + why)
    except (LookupError, ValueError) as error:
        raise refusal(file, "it is no XML: %s" % error)
    return reader.builder.done()


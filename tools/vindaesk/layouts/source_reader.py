"""The nodes of a document from its source, which is XML as people write it."""
from typing import Dict, List, Optional, Tuple
from xml.parsers import expat

from ..common.failures import Failure, WRONG
from . import attributes, values
from .documents import ANDROID, Attribute, End, Namespace, Node, STRING, Start, Text
from ..scripts.resource_names import Names
from .values import Unfit

# more than any source whose compiled form is read
MAX_BYTES = 1 << 24
# how many attributes the program reads of an element
MAX_ATTRIBUTES = 256
# what is for other tools alone, and left out
FOR_TOOLS = "http://schemas.android.com/tools"
# parts the address of a namespace from a name
BETWEEN = "\n"
BLANK = " \t\r\n"
# how a compiled layout begins
COMPILED = b"\x03\0\x08\0"


def parted(whole: str) -> Tuple[str, str]:
    """The namespace and the name of what the parser names by both."""
    namespace, _, name = whole.rpartition(BETWEEN)
    return namespace, name


def order(it: Attribute) -> Tuple[int, str, str]:
    """The place of an attribute in its element: known ones by their numbers, and then the others by their names."""
    number = attributes.id_of(it.namespace, it.name)
    return (number, "", "") if number else (1 << 32, it.namespace, it.name)


class Reader:
    """Reads a source; what does not fit is noted, each in a sentence."""

    def __init__(self, file: str, names: Names):
        self.file = file
        self.names = names
        self.nodes: List[Node] = []
        self.wrong: List[str] = []
        self.notes: List[str] = []
        self.texts: List[str] = []
        self.line = 0
        self.spaces: List[Namespace] = []
        self.open: List[Tuple[Start, List[Namespace]]] = []
        self.prefixes: Dict[str, str] = {}
        # attributes that fit, by name and text: most are there many times
        self.known: Dict[Tuple[str, str], Attribute] = {}
        self.parser = parser = expat.ParserCreate(namespace_separator=BETWEEN)
        parser.ordered_attributes = True
        parser.StartNamespaceDeclHandler = self.space
        parser.StartElementHandler = self.start
        parser.EndElementHandler = self.end
        parser.CharacterDataHandler = self.data
        parser.StartDoctypeDeclHandler = self.doctype

    def place(self) -> str:
        """Where the parser is."""
        return "%s:%d:%d" % (self.file, self.parser.CurrentLineNumber, self.parser.CurrentColumnNumber + 1)

    def doctype(self, *_: object) -> None:
        """A document type."""
        raise Failure("%s: a layout has no document type" % self.place(), WRONG)

    def space(self, prefix: str, address: str) -> None:
        """A namespace that begins at the next element."""
        self.prefixes[address or ""] = prefix or ""
        if address != FOR_TOOLS:
            self.spaces.append(Namespace(prefix or "", address or "", True))

    def data(self, text: str) -> None:
        """A part of a text."""
        if not self.texts:
            self.line = self.parser.CurrentLineNumber
        self.texts.append(text)

    def end_text(self) -> None:
        """Keeps a text that is more than blank; what is blank at its ends becomes one space each."""
        text = "".join(self.texts)
        self.texts = []
        if text.strip(BLANK):
            before, after = (" " if it in BLANK else "" for it in (text[0], text[-1]))
            self.nodes.append(Text(self.line, before + text.strip(BLANK) + after))

    def attribute(self, whole: str, text: str) -> List[Attribute]:
        """An attribute, or none where it is left out or does not fit."""
        namespace, name = parted(whole)
        if namespace == FOR_TOOLS:
            return []
        try:
            value = values.read(text, attributes.form_of(namespace, name), self.names)
        except Unfit as unfit:
            prefix = self.prefixes.get(namespace, "")
            self.wrong.append("%s: %s%s: %s" % (self.place(), prefix and prefix + ":", name, unfit))
            return []
        meant = attributes.slip(name) if namespace == ANDROID else ""
        if meant:
            self.notes.append("%s: android:%s is passed over; did you mean '%s'?" % (self.place(), name, meant))
        made = Attribute(namespace, name, value, value.text if value.kind == STRING else None)
        if not meant:
            self.known[whole, text] = made
        return [made]

    def start(self, whole: str, pairs: List[str]) -> None:
        """An element that begins."""
        self.end_text()
        namespace, name = parted(whole)
        if len(pairs) > 2 * MAX_ATTRIBUTES:
            raise Failure("%s: the element has more than %d attributes" % (self.place(), MAX_ATTRIBUTES), WRONG)
        found: List[Attribute] = []
        for pair in zip(pairs[::2], pairs[1::2]):
            found += [self.known[pair]] if pair in self.known else self.attribute(*pair)
        node = Start(self.parser.CurrentLineNumber, namespace, name, sorted(found, key=order))
        self.nodes += [*self.spaces, node]
        self.open.append((node, self.spaces))
        self.spaces = []

    def end(self, whole: str) -> None:
        """An element that ends; its end has the line of its begin."""
        self.end_text()
        node, spaces = self.open.pop()
        self.nodes.append(End(node.line, node.namespace, node.name))
        self.nodes += [it._replace(begins=False) for it in reversed(spaces)]


def read(
    source: bytes, file: str, names: Names, notes: Optional[List[str]] = None
) -> Tuple[List[Node], List[str]]:
    """The nodes of a source, and in a sentence each what does not fit in it. What fits and is most likely a mistake is
    added to the notes."""
    if source.startswith(COMPILED):
        raise Failure("%s:1:1: this is no XML: it is compiled; --text makes a source of it" % file, WRONG)
    reader = Reader(file, names)
    try:
        reader.parser.Parse(source, True)
    except expat.ExpatError as error:
        place = "%s:%d:%d" % (file, error.lineno, error.offset + 1)
        raise Failure("%s: this is no XML: %s" % (place, expat.ErrorString(error.code)), WRONG)
    except (LookupError, ValueError) as error:
        raise Failure("%s:1:1: this is no XML in an encoding that can be read: %s" % (file, error), WRONG)
    if notes is not None:
        notes += reader.notes
    return reader.nodes, reader.wrong

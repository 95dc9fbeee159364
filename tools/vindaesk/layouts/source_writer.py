"""The source of a document, as people write it. Each element is in the line that the document notes, where there is
room for that, so that the same document is made of it again."""
import re
from typing import List, NamedTuple
from xml.sax.saxutils import escape

from ..common.failures import Failure, NOT_RUN
from . import attributes, values
from .documents import ANDROID, Attribute, End, Namespace, Node, Start, Text
from ..scripts.resource_names import Names

HEAD = '<?xml version="1.0" encoding="utf-8"?>'
NAME = re.compile(r"[A-Za-z_][\w.-]*")
# characters that no source can have
FORBIDDEN = re.compile("[^\t\n\r\u0020-\ud7ff\ue000-\ufffd\U00010000-\U0010ffff]")
# addresses that mean XML itself
RESERVED = ("http://www.w3.org/XML/1998/namespace", "http://www.w3.org/2000/xmlns/")
MANY = 1 << 32
# more blank lines than these are left out
MAX_BLANK = 1000


class Open(NamedTuple):
    """An element that is open: its name in the source, and the namespaces that begin at it."""

    name: str
    spaces: List[Namespace]


def failure(line: int, why: str) -> Failure:
    """What cannot be written."""
    return Failure("the element in line %d cannot be written as a source: %s" % (line, why), NOT_RUN)


def name_of(text: str, line: int) -> str:
    """A name, which has to be one in a source."""
    if not NAME.fullmatch(text):
        raise failure(line, "'%s' is no name" % text)
    return text


def check_namespace(it: Namespace, line: int) -> None:
    """A namespace that no source can have is a failure."""
    if it.prefix:
        name_of(it.prefix, line)
    reserved = it.prefix.lower().startswith("xml") or it.address in RESERVED or (it.prefix and not it.address)
    if reserved or FORBIDDEN.search(it.address):
        raise failure(line, "its namespace '%s' with the prefix '%s' can be in no source" % (it.address, it.prefix))


def quoted(text: str) -> str:
    """The value of an attribute in quotation marks."""
    return '"%s"' % escape(text, {'"': "&quot;"})


class Renderer:
    """Writes the nodes of a document."""

    def __init__(self, names: Names):
        self.names = names
        self.lines = [HEAD]
        self.open: List[Open] = []
        # the namespaces that begin at the next element
        self.spaces: List[Namespace] = []
        # whether a text has just ended, after which a line feed would change it
        self.is_in_text = False

    def prefixed(self, namespace: str, name: str, line: int) -> str:
        """A name with the prefix of its namespace, which gets one where it has none."""
        if not namespace:
            return name_of(name, line)
        known = {it.prefix: it.address for opened in self.open for it in opened.spaces}
        known.update((it.prefix, it.address) for it in self.spaces)
        prefix = next((prefix for prefix, address in known.items() if prefix and address == namespace), None)
        if prefix is None:
            wanted = "android" if namespace == ANDROID else "ns%d" % len(known)
            prefix = wanted if wanted not in known else "ns%d" % len(known)
            self.spaces.append(Namespace(prefix, namespace, True))
        return "%s:%s" % (prefix, name_of(name, line))

    def attribute(self, it: Attribute, line: int) -> str:
        """An attribute."""
        form = attributes.form_of(it.namespace, it.name)
        name = self.prefixed(it.namespace, it.name, line)
        text = values.shown(it.value, form, self.names, (it.namespace, it.name) == (ANDROID, "id"))
        if text is None:
            raise failure(line, "%s has a value of the type %02x, which has no text" % (name, it.value.kind))
        return "%s=%s" % (name, quoted(text))

    def put(self, text: str, line: int) -> None:
        """Begins a line, that of this number where it is still to come; or goes on with the last one after a text."""
        if self.is_in_text:
            self.lines[-1] += text
        else:
            blank = line - 1 - len(self.lines)
            self.lines += [""] * (blank if blank <= MAX_BLANK else 0)
            self.lines.append("    " * len(self.open) + text)
        self.is_in_text = False

    def start(self, node: Start, next_line: int, end: str) -> None:
        """The tag of an element, in one line or, where the next element leaves room, in one for each attribute."""
        if len({(it.namespace, it.name) for it in node.attributes}) < len(node.attributes):
            raise failure(node.line, "it has two attributes of one name")
        for it in self.spaces:
            check_namespace(it, node.line)
        name = self.prefixed(node.namespace, node.name, node.line)
        found = [self.attribute(it, node.line) for it in node.attributes]
        spaces = ["xmlns%s=%s" % (it.prefix and ":" + it.prefix, quoted(it.address)) for it in self.spaces]
        self.put(" ".join(["<" + name, *spaces]), node.line)
        if len(found) > 1 and len(self.lines) + len(found) < next_line:
            self.lines += ["    " * (len(self.open) + 1) + it for it in found]
        else:
            self.lines[-1] = " ".join([self.lines[-1], *found])
        self.lines[-1] += end
        self.open.append(Open(name, self.spaces))
        self.spaces = []

    def end(self, next_line: int, is_empty: bool) -> None:
        """The end of an element, in a line of its own where the next element leaves room."""
        name = self.open.pop().name
        if is_empty:
            return
        self.is_in_text |= len(self.lines) + 1 >= next_line
        self.put("</%s>" % name, 0)

    def text(self, node: Text) -> None:
        """Character data."""
        if FORBIDDEN.search(node.text):
            raise failure(node.line, "a text near it has a character that no source can have")
        self.lines[-1] += escape(node.text, {"\r": "&#13;"})
        self.is_in_text = True


def next_lines(nodes: List[Node]) -> List[int]:
    """For each node the line of the element that begins next."""
    found, line = [], MANY
    for node in reversed(nodes):
        found.append(line)
        line = node.line if isinstance(node, Start) else line
    return found[::-1]


def text(nodes: List[Node], names: Names) -> str:
    """The source of a document."""
    made = Renderer(names)
    for place, (node, next_line) in enumerate(zip(nodes, next_lines(nodes))):
        if isinstance(node, Namespace):
            made.spaces += [node] if node.begins else []
        elif isinstance(node, Start):
            made.start(node, next_line, " />" if isinstance(nodes[place + 1], End) else ">")
        elif isinstance(node, Text):
            made.text(node)
        else:
            made.end(next_line, isinstance(nodes[place - 1], Start))
    return "\n".join(made.lines) + "\n"

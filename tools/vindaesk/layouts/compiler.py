"""The bytes of compiled XML, from the nodes of a document: those that `aapt2` makes, so that `dump` prints the same of
both. docs/FORMATS.md has the form."""
import struct
from typing import Dict, List, Tuple

from ..common.failures import Failure, WRONG
from . import attributes
from .documents import ANDROID, Attribute, Namespace, Node, STRING, Start, Text

POOL, XML, NAMESPACE, END_NAMESPACE, START, END, TEXT, MAP = 0x1, 0x3, 0x100, 0x101, 0x102, 0x103, 0x104, 0x180
UTF8 = 0x100
NONE = 0xFFFFFFFF
# after the strings that are names of known attributes come all others
LAST = 0xFFFFFFFF
MAX_STRING = 0x7FFF
# an element is named by its own fields, then by numbers that nothing reads: which attributes are its id, class, style
SPECIAL = ((ANDROID, "id"), ("", "class"), ("", "style"))

Key = Tuple[int, str]


def chunk(kind: int, head: bytes, body: bytes) -> bytes:
    """A chunk: its header goes on with `head`."""
    return struct.pack("<HHI", kind, 8 + len(head), 8 + len(head) + len(body)) + head + body


def texts_of(node: Node) -> List[str]:
    """The texts of a node, less those of its attributes."""
    if isinstance(node, Namespace):
        return [node.prefix, node.address]
    return [node.text] if isinstance(node, Text) else [node.namespace, node.name]


def strings_of(nodes: List[Node]) -> List[Key]:
    """The strings of a document, in the order of its pool: the names of known attributes by their numbers, and then all
    others by their bytes."""
    names = {(it.namespace, it.name) for node in nodes if isinstance(node, Start) for it in node.attributes}
    texts = {text for node in nodes for text in texts_of(node)} | {address for address, _ in names}
    texts.discard("")
    for node in nodes:
        if isinstance(node, Start):
            texts.update(text for it in node.attributes for text in (it.raw, it.value.text) if text is not None)
    found = {key_of(*it) for it in names} | {(LAST, text) for text in texts}
    return sorted(found, key=lambda key: (key[0], key[1].encode()))


def key_of(namespace: str, name: str) -> Key:
    """The name of an attribute in the pool."""
    return attributes.id_of(namespace, name) or LAST, name


def length(count: int) -> bytes:
    """A length before a string."""
    return bytes([count]) if count < 0x80 else bytes([count >> 8 | 0x80, count & 0xFF])


def string(text: str) -> bytes:
    """A string of the pool."""
    body, units = text.encode(), len(text.encode("utf-16-le")) // 2
    if len(body) > MAX_STRING:
        raise Failure("a text has more than %d bytes: %s .." % (MAX_STRING, text[:40]), WRONG)
    return length(units) + length(len(body)) + body + b"\0"


def pool(keys: List[Key]) -> bytes:
    """The string pool."""
    places, body = [], b""
    bodies = [string(text) for _, text in keys]
    at = 0
    for it in bodies:
        places.append(at)
        at += len(it)
    body = b"".join(bodies)
    body += bytes(-len(body) % 4)
    head = struct.pack("<IIIII", len(keys), 0, UTF8, 28 + 4 * len(keys), 0)
    return chunk(POOL, head, struct.pack("<%dI" % len(places), *places) + body)


class Writer:
    """Writes the nodes of a document, whose strings have their numbers."""

    def __init__(self, keys: List[Key]) -> None:
        self.numbers = {key: number for number, key in enumerate(keys)}
        # the numbers of the names of attributes, each of which is there many times
        self.names: Dict[Tuple[str, str], int] = {}

    def number(self, text: str) -> int:
        """The number of a text, or none where there is no text."""
        return self.numbers[(LAST, text)] if text else NONE

    def attribute(self, it: Attribute) -> bytes:
        """An attribute."""
        raw = NONE if it.raw is None else self.numbers[(LAST, it.raw)]
        word = self.numbers[(LAST, it.value.text or "")] if it.value.kind == STRING else it.value.word
        name = self.names.get((it.namespace, it.name))
        if name is None:
            name = self.names[it.namespace, it.name] = self.numbers[key_of(it.namespace, it.name)]
        return struct.pack("<IIIHBBI", self.number(it.namespace), name, raw, 8, 0, it.value.kind, word)

    def node(self, node: Node, line: int) -> bytes:
        """A node; `line` is that of an element at which a namespace begins or ends."""
        body = b""
        if isinstance(node, Namespace):
            kind = NAMESPACE if node.begins else END_NAMESPACE
            body = struct.pack("<II", self.number(node.prefix), self.number(node.address))
        elif isinstance(node, Text):
            kind, line = TEXT, node.line
            body = struct.pack("<IHBBI", self.numbers[(LAST, node.text)], 0, 0, 0, 0)
        else:
            kind, line = START if isinstance(node, Start) else END, node.line
            body = struct.pack("<II", self.number(node.namespace), self.number(node.name))
        if isinstance(node, Start):
            names = [(it.namespace, it.name) for it in node.attributes]
            special = [names.index(it) + 1 if it in names else 0 for it in SPECIAL]
            body += struct.pack("<HHHHHH", 20, 20, len(names), *special)
            body += b"".join(map(self.attribute, node.attributes))
        return chunk(kind, struct.pack("<II", line, NONE), body)


def lines_of(nodes: List[Node]) -> List[int]:
    """For each namespace the line of the element that begins after it, or has ended before it; 0 for any other node."""
    found = [0] * len(nodes)
    for places, begins in ((range(len(nodes) - 1, -1, -1), True), (range(len(nodes)), False)):
        line = 0
        for place in places:
            node = nodes[place]
            if not isinstance(node, Namespace):
                line = node.line
            elif node.begins is begins:
                found[place] = line
    return found


def compiled(nodes: List[Node]) -> bytes:
    """The file of a document."""
    keys = strings_of(nodes)
    writer = Writer(keys)
    ids = [key[0] for key in keys if key[0] != LAST]
    parts = [pool(keys), chunk(MAP, b"", struct.pack("<%dI" % len(ids), *ids))]
    parts += [writer.node(node, line) for node, line in zip(nodes, lines_of(nodes))]
    return chunk(XML, b"", b"".join(parts))

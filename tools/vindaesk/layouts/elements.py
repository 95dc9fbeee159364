"""The elements of a layout file, from the lines that `dump` writes of it."""
from typing import Dict, List, NamedTuple, Optional, Tuple

from ..common.failures import Failure
from . import dimensions, documents
from .documents import ANDROID, DIMENSION, NULL, REFERENCE, End, Node, Start, Value


class Element(NamedTuple):
    """An element: the place of the one around it, the last part of its name, its attributes of Android, its whole name,
    and its line in the source."""

    parent: Optional[int]
    name: str
    attributes: Dict[str, Value]
    whole: str = ""
    line: int = 0


def elements_in(nodes: List[Node]) -> List[Element]:
    """The elements of a document in order."""
    elements: List[Element] = []
    open_ones: List[int] = []
    for node in nodes:
        if isinstance(node, Start):
            around = open_ones[-1] if open_ones else None
            open_ones.append(len(elements))
            known = {it.name: it.value for it in node.attributes if it.namespace == ANDROID}
            elements.append(Element(around, node.name.rpartition(".")[2], known, node.name, node.line))
        elif isinstance(node, End):
            open_ones.pop()
    return elements


def read(name: str, folder: str) -> List[Element]:
    """The elements of the layout file of this name, which was read before."""
    lines, why = documents.printed(name, folder)
    if lines is None:
        raise Failure("the layout file %s cannot be printed any more: %s" % (name, why))
    return elements_in(list(documents.nodes_in(lines)))


def reference(value: Optional[Value]) -> Tuple[bool, int]:
    """Whether a value is a reference or null, and to which id."""
    if value is None or value.kind not in (NULL, REFERENCE):
        return False, 0
    return True, value.word if value.kind == REFERENCE else 0


def length(value: Value) -> str:
    """A length as sources have it."""
    is_reference, number = reference(value)
    if is_reference:
        return "@%08x" % number if number else "@null"
    return dimensions.text(value.word) if value.kind == DIMENSION else "%d" % dimensions.signed(value.word, 32)

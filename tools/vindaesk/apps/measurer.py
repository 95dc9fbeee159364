"""The bounds that the program gives to the elements of a layout."""
import os
import tempfile
from typing import List, Optional, Tuple

from ..common.failures import WRONG, Failure
from ..layouts import compiler
from ..layouts.attributes import VISIBILITIES
from ..program import process
from . import writer
from .draft import Node, whole

Bounds = Optional[Tuple[int, int, int, int]]
NAME = "measured"
INVISIBLE = VISIBILITIES["invisible"]


class Measurer:
    """Asks the program for bounds, in a window of some size and density."""

    def __init__(self, window: Tuple[int, int], density: int):
        self.window, self.density = window, density

    def bounds(self, root: Node) -> List[Bounds]:
        """The bounds of all elements in their parents, in the order in which they begin."""
        with tempfile.TemporaryDirectory() as folder:
            with open(os.path.join(folder, NAME + ".xml"), "wb") as file:
                file.write(compiler.compiled(writer.nodes_of(unpainted(root))))
            script = writer.script(NAME, self.window, self.density, []) + b"bounds\n"
            written, status = process.ran(["run"], script, folder)
        if status not in (0, 1):
            raise process.failed(status)
        lines = written.split(b"\n")
        found = [bounds_of(it) for it in lines if it.startswith(b"v")]
        if b": refused " in written or not found:
            raise Failure("the program refuses the layout: %s" % lines[0].decode("utf-8", "replace"), WRONG)
        return found


def unpainted(root: Node) -> Node:
    """The same elements, of which nothing is painted, since that takes most of the time."""
    attributes = {"visibility": whole(INVISIBLE), **root.attributes}
    return Node(root.kind, attributes, root.children, root.record)


def bounds_of(line: bytes) -> Bounds:
    """The bounds in a line `vN LEFT TOP RIGHT BOTTOM`."""
    words = line.split(b" ")
    if words[1] == b"none":
        return None
    left, top, right, bottom = (int(it) for it in words[1:5])
    return left, top, right, bottom

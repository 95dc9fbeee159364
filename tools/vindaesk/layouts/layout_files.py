"""Which files are layouts, by how they begin."""
import os
from typing import Dict
from xml.parsers import expat

from ..scripts.others import COMPILED

LAYOUT = ".xml"
ANDROID = "http://schemas.android.com/apk/res/android "
# elements that begin a layout without a size of their own
OUTERMOST = ("merge", "layout")
# how much of a source is looked at
HEAD = 65536


def head_of(path: str, size: int) -> bytes:
    """The first bytes of a file in XML, by its name; none of another one, or where they cannot be read."""
    if not path.endswith(LAYOUT) or not os.path.isfile(path):
        return b""
    try:
        with open(path, "rb") as file:
            return file.read(size)
    except OSError:
        return b""


def is_compiled(path: str) -> bool:
    """Whether a file is a compiled layout."""
    return head_of(path, len(COMPILED)) == COMPILED


def is_source(path: str) -> bool:
    """Whether a file is the source of a layout: XML whose outermost element has a width, or a style, as only those of
    layouts have; or is one that they alone have. A folder `values` has none."""
    if os.path.basename(os.path.dirname(path)).startswith("values"):
        return False
    found: Dict[str, bool] = {}

    def begin(name: str, attributes: Dict[str, str]) -> None:
        is_layout = ANDROID + "layout_width" in attributes or "style" in attributes or name in OUTERMOST
        found.setdefault("is_layout", is_layout)

    parser = expat.ParserCreate(namespace_separator=" ")
    parser.StartElementHandler = begin
    try:
        parser.Parse(head_of(path, HEAD))
    except expat.ExpatError:
        pass
    return found.get("is_layout", False)

"""What a session answers."""
import re
from typing import Dict, List, NamedTuple, Optional, Tuple, Union

from ..views import placement
from ..views.placement import Box, Placed
from . import checked

Word = Union[str, int, bool]

TOUCHED = re.compile(r"v([0-9]+) touch (?:DOWN|POINTER_DOWN\(([0-9]+)\)) (.*) yes")
POINT = re.compile(r"([0-9]+):(-?[0-9]+),(-?[0-9]+)")
CLICKED = re.compile(r"v([0-9]+) click")
SCROLLED = re.compile(r"v([0-9]+) scroll ([0-9]+)")


class Frame(NamedTuple):
    """How a frame went: whether it has settled, so that there are bounds and a picture, and how many hooks fired."""

    is_settled: bool
    fired: int


class Inflated(NamedTuple):
    """The first and the last new view of a layout file, and how many of its attributes were ignored."""

    first: str
    last: str
    ignored: int


class Bounds(NamedTuple):
    """Left, top, right and bottom in pixels of the parent, right and bottom exclusive; and how far a `ScrollView` has
    moved its child up, None for any other class."""

    left: int
    top: int
    right: int
    bottom: int
    scroll: Optional[int] = None


class Node(NamedTuple):
    """A view of `tree`: its name, that of its parent, its depth, 1 for the root, what `tools/tree --json` has, whether
    it answers touches with a click, and what of it is seen, None where nothing is."""

    name: str
    parent: Optional[str]
    depth: int
    kind: str
    id: Optional[str]
    text: Optional[str]
    bounds: Optional[Box]
    window: Optional[Box]
    scroll: Optional[int]
    visibility: str
    background: Optional[str]
    id_name: Optional[str] = None
    clickable: bool = False
    seen: Optional[Box] = None


# a view by its number or its id, as lines name it, or as it was found
Viewed = Union[str, Node]


class Way(List[str]):
    """The way of events: the replies to lines of touch, as docs/TOUCH.md has them."""

    @property
    def taken_by(self) -> Optional[str]:
        """The view that took the pointer when it came down last; None where none did."""
        found = [it[1] for it in map(TOUCHED.fullmatch, self) if it]
        return "v" + found[-1] if found else None

    @property
    def taken_at(self) -> Optional[Tuple[int, int]]:
        """Where that was, in pixels of the view."""
        found = [it for it in map(TOUCHED.fullmatch, self) if it]
        points = POINT.findall(found[-1][3]) if found else []
        wanted = found[-1][2] if found else None
        return next(((int(x), int(y)) for number, x, y in points if wanted in (None, number)), None)

    @property
    def clicked(self) -> List[str]:
        """The views that were clicked, in order."""
        return ["v" + it[1] for it in map(CLICKED.fullmatch, self) if it]

    @property
    def scrolled(self) -> Dict[str, int]:
        """The views that were scrolled, each with its last offset in pixels."""
        return {"v" + it[1]: int(it[2]) for it in map(SCROLLED.fullmatch, self) if it}


SETTLED = Frame(True, 0)


def frame_of(reply: bytes) -> Frame:
    """What the reply of a frame says."""
    if reply == b"settled 0":
        return SETTLED
    word, fired = reply.split(b" ")
    return Frame(word == b"settled", int(fired))


def word_of(value: Word) -> str:
    """A value as a word of a line."""
    checked.words(value)
    if isinstance(value, bool):
        return "yes" if value else "no"
    return str(value)


def escaped(text: str) -> str:
    """A text as lines write it."""
    return text.replace("\\", "\\\\").replace("\n", "\\n")


def called(view: Viewed) -> str:
    """A view as lines name it."""
    if isinstance(view, Node):
        return view.name
    if not isinstance(view, str):
        raise TypeError("a view is a name as 'v3' or '@id/send', or what find returned, and not %r" % (view,))
    return view


def node_of(it: Placed, seen: Optional[Box]) -> Node:
    """A view of a tree as it is now."""
    view = it.view
    parent = "v%d" % view.parent.number if view.parent else None
    return Node(
        "v%d" % view.number,
        parent,
        view.depth,
        view.kind,
        placement.name_of(view.id),
        view.text,
        it.bounds,
        it.window,
        it.scroll,
        view.visibility,
        view.background,
        view.id_name,
        view.answer == "click",
        seen,
    )

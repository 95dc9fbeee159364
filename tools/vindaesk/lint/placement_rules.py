"""Rules on where views lie."""
from typing import Iterator, Tuple

from ..views.view_tree import View
from .page import Page
from .registry import Severity, rule
from .seen import Seen

SIDES = ("left", "top", "right", "bottom")


def beyond(it: Seen, width: int, height: int) -> Tuple[int, int, int, int]:
    """How many pixels the bounds of a view reach beyond the sides of a box from 0 0."""
    return (-it.bounds[0], -it.bounds[1], it.bounds[2] - width, it.bounds[3] - height)


@rule("outside", by_bounds=True)
def outside(it: Seen, page: Page) -> Iterator[str]:
    """A view lies inside its parent; the child of a `ScrollView` may be higher."""
    parent = page.parent(it)
    if parent is None or not (it.width and it.height) or is_cut_label(it):
        return
    height = parent.height if parent.scroll is None else it.bounds[3]
    width = parent.width if parent.scroll is None else max(parent.width, it.bounds[2])
    sides = ["%g dp beyond the %s" % (page.dp(by), name) for by, name in zip(beyond(it, width, height), SIDES) if by > 0]
    if sides:
        yield "%s of v%d, which is %s" % (", ".join(sides), parent.view.number, page.size(parent.width, parent.height))


def is_cut_label(it: Seen) -> bool:
    """Whether a view was added for a text that is cut off: its own rule says that."""
    return it.is_added and it.view.kind == "TextView"


@rule("off-window", Severity.ERROR, by_bounds=True)
def off_window(it: Seen, page: Page) -> Iterator[str]:
    """Something of each view is in the window, or a `ScrollView` brings it there."""
    parent = page.parent(it)
    is_first = parent is not None and meets(parent, page)
    if not (it.width and it.height) or not is_first or meets(it, page):
        return
    if not any(around.scroll is not None for around in page.around(it)):
        yield "no part of it is in the window: it is at %g, %g dp of %s" % (
            page.dp(it.window[0]), page.dp(it.window[1]), page.size(*page.window))


def meets(it: Seen, page: Page) -> bool:
    """Whether a view and the window have a pixel in common."""
    left, top, right, bottom = it.window
    return left < page.window[0] and top < page.window[1] and right > 0 and bottom > 0


@rule("no-size", Severity.ERROR, by_bounds=True)
def no_size(it: Seen, page: Page) -> Iterator[str]:
    """A view with a text, a background or visible children has a width and a height."""
    if (it.width and it.height) or it.is_added:
        return
    parent = page.parent(it)
    if parent is not None and not (parent.width and parent.height):
        return
    what = "a text" if it.view.text else "children" if is_any_seen(it, page) else "a background" if has_fill(it.view) else ""
    what = what or ("an answer to touches" if it.view.is_touched() else "")
    if what:
        yield "it has %s, and is %s" % (what, page.size(it.width, it.height))


def has_fill(view: View) -> bool:
    """Whether a view has a background, or may have one."""
    return view.background is None or int(view.background[1:3], 16) > 0


def is_any_seen(it: Seen, page: Page) -> bool:
    """Whether a child of a view has an area of its own."""
    return any(child.width and child.height and not child.is_added for child in page.children(it))


@rule("overlap", Severity.WARNING, "RelativeOverlap", by_bounds=True)
def overlap(it: Seen, page: Page) -> Iterator[str]:
    """Siblings that answer touches do not overlap."""
    for other in page.siblings_after(it) if it.view.is_touched() else []:
        width = min(it.bounds[2], other.bounds[2]) - max(it.bounds[0], other.bounds[0])
        height = min(it.bounds[3], other.bounds[3]) - max(it.bounds[1], other.bounds[1])
        if other.view.is_touched() and width > 0 and height > 0:
            yield "%s of it are under its sibling %s" % (page.size(width, height), other.name())


@rule("scroll-width", by_bounds=True)
def scroll_width(it: Seen, page: Page) -> Iterator[str]:
    """The child of a `ScrollView` is not wider than this, which scrolls up and down alone."""
    parent = page.parent(it)
    if parent is not None and parent.scroll is not None and it.bounds[2] > parent.width:
        yield "it is %g dp wide, and its ScrollView v%d %g, which shows the rest at no offset" % (
            page.dp(it.width), parent.view.number, page.dp(parent.width))


@rule("wrap-empty", by_bounds=True)
def wrap_empty(it: Seen, page: Page) -> Iterator[str]:
    """A group that is as large as its content has content that makes it larger than nothing."""
    shown = [child for child in page.children(it) if not child.is_added and has_content(child.view)]
    for name, size in (("width", it.width), ("height", it.height)):
        if shown and it.view.given.get(name) == "wrap" and size == 0 and not it.is_added:
            yield "its %s is that of its content, and 0: v%d in it takes its %s from it" % (name, shown[0].view.number, name)


def has_content(view: View) -> bool:
    """Whether a view, or one in it, has a text or a background."""
    return any(it.text or has_fill(it) for it in view.and_below())

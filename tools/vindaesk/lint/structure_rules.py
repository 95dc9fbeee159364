"""Rules on the tree."""
from typing import Dict, Iterator, List

from ..views import placement
from ..views.view_tree import View
from .page import Page
from .placement_rules import has_fill
from .registry import Severity, rule
from .seen import Seen

# what Android's lint has
MOST_DEEP = 10
MOST_VIEWS = 80
GROUPS = ("FrameLayout", "LinearLayout", "RelativeLayout")


def is_own(view: View) -> bool:
    """Whether a view has an element or a line of its own."""
    return view.source is not None and not view.source.is_added


def is_plain(it: Seen) -> bool:
    """Whether a view is a group of the three classes, of its own element, that paints and answers nothing."""
    is_group = it.view.kind in GROUPS and (it.source is None or it.element in GROUPS)
    is_root = it.view.parent is None or it.view.parent.source is None
    return is_group and not is_root and is_own(it.view) and not has_fill(it.view) and not it.view.is_touched() and not it.view.id


@rule("useless-parent", Severity.WARNING, "UselessParent")
def useless_parent(it: Seen, page: Page) -> Iterator[str]:
    """A group with one child, whose bounds are the same, paints or answers something or has an id."""
    children = page.children(it)
    if len(it.view.children) != 1 or len(children) != 1 or not is_plain(it) or not is_own(children[0].view):
        return
    if children[0].window == it.window and it.width and it.height:
        yield "its one child v%d has the same bounds, and could be in its place" % children[0].view.number


@rule("useless-leaf", Severity.WARNING, "UselessLeaf")
def useless_leaf(it: Seen, page: Page) -> Iterator[str]:
    """A group without children paints or answers something, or has an id."""
    if it.view.kind in GROUPS and not it.view.children and is_plain(it):
        yield "it has no child, no background and no id"


def depth_of(view: View) -> int:
    """How many views of their own elements are on the way from the root to a view."""
    count, at = 0, view
    while True:
        count += is_own(at)
        if at.parent is None:
            return count
        at = at.parent


@rule("too-deep", Severity.WARNING, "TooDeepLayout")
def too_deep(it: Seen, page: Page) -> Iterator[str]:
    """A view is at most 10 deep, where the root is 1 deep."""
    if is_own(it.view) and depth_of(it.view) == MOST_DEEP + 1 and (it.view.children or it.view.kind != "View"):
        deepest = max(depth_of(at) for at in it.view.and_below())
        yield "it is %d deep, and the views in it up to %d: more than %d" % (MOST_DEEP + 1, deepest, MOST_DEEP)


@rule("too-many", Severity.WARNING, "TooManyViews")
def too_many(it: Seen, page: Page) -> Iterator[str]:
    """A layout has at most 80 views."""
    count = sum(is_own(at.view) for at in page.placed) if it.view.parent is None else 0
    if count > MOST_VIEWS:
        yield "the layout has %d views, more than %d" % (count, MOST_VIEWS)


def by_ids(page: Page) -> Dict[int, List[View]]:
    """The views of each id, in preorder."""
    found: Dict[int, List[View]] = {}
    for it in page.placed:
        if it.view.id and is_own(it.view):
            found.setdefault(it.view.id, []).append(it.view)
    return found


@rule("duplicate-id", Severity.WARNING, "DuplicateIds", "DuplicateIncludedIds")
def duplicate_id(it: Seen, page: Page) -> Iterator[str]:
    """An id belongs to one view of the layout."""
    same = by_ids(page).get(it.view.id, []) if it.view.id else []
    if len(same) > 1 and it.view in same[1:]:
        yield "%s is the id of v%d too, which lines and findViewById find first" % (placement.id_of(it.view), same[0].number)


def shares(view: View) -> bool:
    """Whether a view takes a share of the line that it is in."""
    is_in_line = view.parent is not None and view.parent.kind == "LinearLayout"
    return is_in_line and float(view.given.get("weight") or 0) > 0


@rule("nested-weights", Severity.WARNING, "NestedWeights")
def nested_weights(it: Seen, page: Page) -> Iterator[str]:
    """A line with shares is not itself a share of a line: each level measures what is in it again."""
    if it.view.kind != "LinearLayout" or not is_own(it.view) or not shares(it.view):
        return
    inner = [view for view in it.view.children.values() if shares(view)]
    if inner:
        levels = 1 + sum(shares(around.view) for around in [it, *page.around(it)])
        yield "it has a weight, and its child v%d has one too: %d levels of weights, each of which may measure twice" % (
            inner[0].number, levels)


@rule("nested-scroll", Severity.WARNING, "NestedScrolling")
def nested_scroll(it: Seen, page: Page) -> Iterator[str]:
    """A `ScrollView` is not in another one, which scrolls the same way."""
    if it.scroll is None:
        return
    around = next((at for at in page.around(it) if at.scroll is not None), None)
    if around is not None:
        yield "it is in the ScrollView v%d, which scrolls up and down too" % around.view.number


@rule("scroll-match", Severity.NOTE, "ScrollViewSize")
def scroll_match(it: Seen, page: Page) -> Iterator[str]:
    """The child of a `ScrollView` is as high as its content."""
    parent = page.parent(it)
    if parent is not None and parent.scroll is not None and it.view.given.get("height") == "match" and is_own(it.view):
        yield "its height is that of its ScrollView v%d, in which it should be wrap_content" % parent.view.number

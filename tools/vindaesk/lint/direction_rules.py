"""Rules on what changes where the layout runs from right to left: the program lays it out both ways."""
import re
from typing import Iterator, List, Optional

from ..views.placement import Placed
from .page import Page
from .registry import Severity, rule
from .seen import Seen

# each with the name in its place; `left` and `right` in gravities too
SIDED = re.compile(r"android:(layout_(?:margin|align|alignParent|to)|padding|drawable)(Left|Right)(Of)?")
TURNED = {"Left": "Start", "Right": "End"}
VERBS = {"left_of": "start_of", "right_of": "end_of", "align_left": "align_start", "align_right": "align_end",
         "parent_left": "parent_start", "parent_right": "parent_end"}


def instead(key: str) -> Optional[str]:
    """The attribute that means start or end in the place of one that means left or right."""
    found = SIDED.fullmatch(key)
    return "android:%s%s%s" % (found[1], TURNED[found[2]], found[3] or "") if found else None


def sided(it: Seen) -> List[str]:
    """What of a view names left or right where start or end would follow the direction, each with that."""
    source = it.source
    found: List[str] = []
    own = source.attributes if source and not it.is_added else {}
    for key, at in own.items():
        other = instead(key)
        if other and other not in own and at.origin != "theme" and at.resolved not in ("0dp", "0px", "false"):
            found.append("%s: use %s" % (key, other.partition(":")[2]))
    if source is None or not own:
        found += ["%s: use %s" % (verb, VERBS[verb]) for verb in it.view.rules if verb in VERBS]
    words = (it.view.given.get("gravity") or "").split("|")
    found += ["gravity %s: use %s" % (word, TURNED[word.title()].lower()) for word in words if word.title() in TURNED]
    return found


@rule("left-right", Severity.NOTE, "RtlHardcoded")
def left_right(it: Seen, page: Page) -> Iterator[str]:
    """Attributes say start and end where they mean the sides of reading."""
    for what in sided(it) if not it.is_added else []:
        yield what


def has_own_direction(it: Seen, page: Page) -> bool:
    """Whether a view around sets a direction, so that it is not to be turned."""
    return any(at.view.given.get("direction") in ("ltr", "rtl") for at in [it, *page.around(it)])


def misplaced_by(it: Seen, other: Placed, parent: Seen, other_parent: Placed) -> int:
    """By how many pixels a view lies elsewhere in the other direction than its mirror image; 0 where sizes differ."""
    if other.bounds is None or other_parent.bounds is None:
        return 0
    widths = [other.bounds[2] - other.bounds[0], other_parent.bounds[2] - other_parent.bounds[0]]
    if widths != [it.width, parent.width]:
        return 0
    return other.bounds[0] - (parent.width - it.bounds[2])


@rule("not-mirrored", Severity.WARNING, "RtlHardcoded", by_bounds=True)
def not_mirrored(it: Seen, page: Page) -> Iterator[str]:
    """Where the layout runs from right to left, a view lies where its mirror image would."""
    parent = page.parent(it)
    if parent is None or it.is_added or has_own_direction(it, page):
        return
    other, other_parent = page.mirrored.get(it.view.number), page.mirrored.get(parent.view.number)
    by = misplaced_by(it, other, parent, other_parent) if other and other_parent else 0
    why = sided(it)
    if by and other and other.bounds and why:
        yield "%g dp from the left in one direction and %g in the other, where its mirror image would be at %g: %s" % (
            page.dp(it.bounds[0]), page.dp(other.bounds[0]), page.dp(parent.width - it.bounds[2]), "; ".join(why))


@rule("one-sided-padding", Severity.NOTE, "RtlSymmetry")
def one_sided_padding(it: Seen, page: Page) -> Iterator[str]:
    """A padding at one side has one at the other."""
    for one, other in (("Left", "Right"), ("Right", "Left"), ("Start", "End"), ("End", "Start")):
        keys = ["android:padding" + side for side in (one, other)]
        if it.written(keys[0]) and it.attribute(keys[1]) is None and it.attribute("android:padding") is None:
            if it.attribute(keys[0]) not in ("0dp", "0px"):
                yield "it has %s, and no %s" % (keys[0], keys[1])

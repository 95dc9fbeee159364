"""The children of a ConstraintLayout: what each is tied to on each axis. Guidelines, barriers and groups are no
views that are seen. apps/constraint_solver.py places them for one window."""
import math
from dataclasses import dataclass, field
from fractions import Fraction
from typing import List, NamedTuple, Optional, Tuple

from ..layouts.attributes import ORIENTATIONS, VISIBILITIES
from ..resources.values import Type, Value
from .draft import MATCH, WRAP, Draft, Node, length_of, whole
from .drawables import pixels
from .expansion import View

PARENT = 0
AXES = ("Horizontal", "Vertical")
SIZE_NAMES = ("Width", "Height")
SIZES = ("layout_width", "layout_height")
# the sides of each axis: the names of the one where it begins, and of the one where it ends
BEGINS = (("Start", "Left"), ("Top",))
ENDS = (("End", "Right"), ("Bottom",))
CHAINS = {"spread": 0, "spread_inside": 1, "packed": 2}
SPREAD, SPREAD_INSIDE, PACKED = 0, 1, 2
DEFAULTS = {"spread": 0, "wrap": 1, "percent": 2}
DIRECTIONS = {"left": 0, "right": 1, "top": 2, "bottom": 3, "start": 5, "end": 6}
GONE = VISIBILITIES["gone"]
MAX_REFERENCES = 256
HALF = Fraction(1, 2)
CONSTRAINT = "app:layout_constraint"
BASELINE = CONSTRAINT + "Baseline_toBaselineOf"


class Anchor(NamedTuple):
    """A side to which another one is tied: the id of a view, 0 for the parent; whether it is the side where the axis
    ends; and the margin between in pixels, also for a view that is gone."""

    target: int
    is_end: bool
    margin: int
    gone_margin: int


@dataclass
class Tie:
    """A child on one axis: its anchors; its size in pixels, or WRAP, or MATCH where its anchors give it; and how it
    is placed between them."""

    begin: Optional[Anchor] = None
    end: Optional[Anchor] = None
    size: int = WRAP
    bias: Fraction = HALF
    weight: Fraction = Fraction(0)
    chain: int = SPREAD
    share: Optional[Fraction] = None
    least: int = 0
    most: int = 0
    by_content: bool = False


@dataclass
class Child:
    """A child: its id, or a number below 0; its element; what it is tied to across and down; its form, width by
    height."""

    number: int
    node: Node
    ties: Tuple[Tie, Tie]
    is_gone: bool = False
    ratio: Optional[Fraction] = None
    ratio_axis: Optional[int] = None
    # the id of the view whose text has the same baseline
    baseline: Optional[int] = None
    circle: Optional["Circle"] = None


class Circle(NamedTuple):
    """A place on a circle around the centre of another view: its id; how far the centre is from there across and down,
    in pixels."""

    target: int
    away: Tuple[Fraction, Fraction]


class Line(NamedTuple):
    """A guideline, on an axis (0 across): a place from the begin, from the end, or as a share; or a barrier: the ids
    of views, and whether it is at their ends."""

    number: int
    axis: int
    begin: Optional[int] = None
    end: Optional[int] = None
    share: Optional[Fraction] = None
    views: Tuple[int, ...] = ()
    is_at_ends: bool = False
    margin: int = 0


@dataclass
class Constraints:
    """A ConstraintLayout: its element, its children and its lines, and its padding from left to bottom."""

    node: Node
    padding: Tuple[int, int, int, int]
    children: List[Child] = field(default_factory=list)
    lines: List[Line] = field(default_factory=list)


def fraction(draft: Draft, key: str) -> Optional[Fraction]:
    """A number, or a share, of an attribute."""
    value = draft.value(key)
    if value is None:
        return None
    if value.type == Type.FLOAT:
        number = value.real()
        return Fraction(number).limit_denominator(1 << 16) if abs(number) < 1 << 16 else None
    if value.type == Type.FRACTION:
        return value.complex().amount
    return Fraction(value.number()) if value.is_int else None


def target_of(value: Optional[Value]) -> Optional[int]:
    """The id that an anchor names, 0 for the parent."""
    if value is None or value.is_null and value.type != Type.INT_DEC:
        return None
    if value.is_reference:
        return value.data
    return PARENT if (value.is_int and value.data == 0) or value.text == "parent" else None


def anchor(draft: Draft, own: Tuple[str, ...], begins: Tuple[str, ...], ends: Tuple[str, ...]) -> Optional[Anchor]:
    """To what a side is tied."""
    for side in own:
        for others, is_end in ((begins, False), (ends, True)):
            for other in others:
                key = "%s%s_to%sOf" % (CONSTRAINT, side, other)
                draft.use(key)
                target = target_of(draft.own.get(key))
                if target is not None:
                    return Anchor(target, is_end, margin_of(draft, own), gone_margin_of(draft, own))
    return None


def margin_of(draft: Draft, sides: Tuple[str, ...]) -> int:
    """The margin of a side, at least 0."""
    every = draft.length("layout_margin")
    if every is not None:
        return max(every, 0)
    for side in sides:
        found = draft.length("layout_margin" + side)
        if found is not None:
            return max(found, 0)
    return 0


def gone_margin_of(draft: Draft, sides: Tuple[str, ...]) -> int:
    """The margin of a side to a view that is gone."""
    for side in sides:
        found = draft.length("app:layout_goneMargin" + side)
        if found is not None:
            return max(found, 0)
    return margin_of(draft, sides)


def tie_of(draft: Draft, axis: int) -> Tie:
    """What a child is tied to on an axis."""
    begins, ends = BEGINS[axis], ENDS[axis]
    made = Tie(anchor(draft, begins, begins, ends), anchor(draft, ends, begins, ends))
    size, name = draft.value(SIZES[axis]), CONSTRAINT + SIZE_NAMES[axis]
    if size is not None and size.type == Type.DIMENSION:
        length = pixels(size, draft.app.density) or 0
        made.size = MATCH if length == 0 else length
    elif size is not None and (size.data == MATCH & 0xFFFFFFFF or size.text in ("match_parent", "fill_parent")):
        made.size = MATCH
        made.begin = Anchor(PARENT, False, margin_of(draft, begins), 0)
        made.end = Anchor(PARENT, True, margin_of(draft, ends), 0)
    bias = fraction(draft, CONSTRAINT + AXES[axis] + "_bias")
    made.bias = min(max(bias, Fraction(0)), Fraction(1)) if bias is not None else HALF
    made.weight = max(fraction(draft, CONSTRAINT + AXES[axis] + "_weight") or Fraction(0), Fraction(0))
    made.chain = draft.number(CONSTRAINT + AXES[axis] + "_chainStyle", CHAINS) or SPREAD
    kind = draft.number(name + "_default", DEFAULTS) or 0
    share = fraction(draft, name + "_percent")
    made.share = share if share is not None and kind in (0, DEFAULTS["percent"]) else None
    made.by_content = kind == DEFAULTS["wrap"]
    made.least, made.most = draft.length(name + "_min") or 0, draft.length(name + "_max") or 0
    if draft.boolean("app:layout_constrained" + SIZE_NAMES[axis]) and made.size == WRAP:
        made.size, made.by_content = MATCH, True
    return made


def ratio_of(draft: Draft) -> Tuple[Optional[Fraction], Optional[int]]:
    """The form of a child as width by height, and which side is found by the other one, where it is said."""
    text = draft.text(CONSTRAINT + "DimensionRatio")
    if not text:
        return None, None
    axis, _, plain = text.rpartition(",")
    across, _, down = plain.partition(":")
    try:
        width, height = Fraction(across.strip()), Fraction(down.strip() or "1")
    except (ValueError, ZeroDivisionError):
        draft.unfit(CONSTRAINT + "DimensionRatio")
        return None, None
    if width <= 0 or height <= 0 or max(width, height) > 1 << 16:
        return None, None
    return width / height, {"W": 0, "H": 1}.get(axis.strip().upper())


def circle_of(draft: Draft) -> Optional[Circle]:
    """The circle on which a child is placed: the angle runs from the top to the right."""
    key = CONSTRAINT + "Circle"
    draft.use(key)
    target = target_of(draft.own.get(key))
    angle, radius = fraction(draft, key + "Angle"), draft.length(key + "Radius")
    if target is None:
        return None
    turn = math.radians(float(angle or 0))
    across, down = (Fraction(it * (radius or 0)) for it in (math.sin(turn), -math.cos(turn)))
    return Circle(target, (across, down))


def line_of(view: View, draft: Draft) -> Line:
    """A guideline."""
    down = draft.number("orientation", ORIENTATIONS) or draft.number("app:orientation", ORIENTATIONS) or 0
    begin, end = draft.length(CONSTRAINT + "Guide_begin"), draft.length(CONSTRAINT + "Guide_end")
    return Line(id_of(view), 0 if down else 1, begin, end, fraction(draft, CONSTRAINT + "Guide_percent"))


def id_of(view: View) -> int:
    """The id of a view, or 0."""
    value = view.attributes.get("android:id")
    return value.data if value is not None and value.is_reference else 0


def references(draft: Draft) -> Tuple[int, ...]:
    """The ids that a helper names, by their names."""
    names = (draft.text("app:constraint_referenced_ids") or "").split(",")[:MAX_REFERENCES]
    found = [draft.app.resources.find(it.strip(), "id") for it in names if it.strip()]
    return tuple(it for it in found if it is not None)


def barrier_of(view: View, draft: Draft) -> Line:
    """A barrier."""
    side = draft.number("app:barrierDirection", DIRECTIONS)
    side = side if side is not None else 0
    axis = 1 if side in (DIRECTIONS["top"], DIRECTIONS["bottom"]) else 0
    at_ends = side in (DIRECTIONS["right"], DIRECTIONS["bottom"], DIRECTIONS["end"])
    margin = draft.length("app:barrierMargin") or 0
    return Line(id_of(view), axis, views=references(draft), is_at_ends=at_ends, margin=margin)


def natural(child: Child) -> None:
    """Gives a child its own size, for the first measuring."""
    for axis in (0, 1):
        tie = child.ties[axis]
        child.node.attributes[SIZES[axis]] = length_of(tie.size) if tie.size >= 0 else whole(WRAP)

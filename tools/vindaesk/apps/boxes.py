"""What all views have: where they are in their parent, padding, background, least size, visibility, and whether they
answer clicks."""
from dataclasses import replace
from typing import NamedTuple, Optional, Tuple

from ..layouts import attributes as known
from ..layouts import documents
from ..resources.values import Type
from . import drawables
from .bitmaps import Edges
from .draft import MATCH, MAX_MARGIN, MAX_SIZE, SIZES, WRAP, Draft, boolean_of, colour_of, keys_of, length_of, whole
from .drawables import NO_EDGES, Drawable
from .report import Effect

SIDES = ("Left", "Top", "Right", "Bottom")
OF_PARENTS = {name: it.form for name, it in known.KNOWN.items() if name.startswith("layout_")}
SIBLING_RULES = tuple(name for name, form in OF_PARENTS.items() if form is known.REFERENCE)
PARENT_RULES = tuple(name for name, form in OF_PARENTS.items() if form is known.BOOLEAN)
TABLE_PARENTS = ("TableLayout", "TableRow")
LINES = ("LinearLayout", *TABLE_PARENTS)
MARGINS = keys_of("layout_margin layout_marginLeft layout_marginTop layout_marginRight layout_marginBottom "
                  "layout_marginStart layout_marginEnd layout_marginHorizontal layout_marginVertical")
PADDINGS = keys_of("padding paddingLeft paddingTop paddingRight paddingBottom paddingHorizontal paddingVertical "
                   "paddingStart paddingEnd")
# the API level from which on an attribute is read
NEW = {"paddingHorizontal": 26, "paddingVertical": 26, "layout_marginHorizontal": 26, "layout_marginVertical": 26}


class Box(NamedTuple):
    """The padding of a view, as left, top, right and bottom, and its least width and height, in pixels."""

    padding: Edges
    width: int
    height: int
    background: Drawable

    @property
    def across(self) -> int:
        """The left and the right padding together."""
        return self.padding[0] + self.padding[2]

    @property
    def down(self) -> int:
        """The top and the bottom padding together."""
        return self.padding[1] + self.padding[3]


# the reason of a note on a size that is missing
NO_SIZE = "it has no %s: wrap_content here; Android refuses it"


def put_sizes(draft: Draft) -> None:
    """Width and height. Android refuses a view without them, except in a table or a grid."""
    for name in SIZES:
        draft.put_direct(name)
        if name in draft.node.attributes:
            continue
        is_wide = draft.parent == "TableLayout" and name == "layout_width"
        draft.put(name, whole(MATCH if is_wide else WRAP))
        if draft.parent not in (*TABLE_PARENTS, "GridLayout") and draft.view.parent is not None:
            draft.record.approximate("", NO_SIZE % name, Effect.BOUNDS)


def is_too_new(draft: Draft, name: str) -> bool:
    """Whether an attribute is newer than the device."""
    level = NEW[name]
    if draft.app.resources.device.sdk >= level:
        return False
    if draft.attributes.given("android:" + name) is not None:
        draft.record.no_effect("android:" + name, "Android reads it from API level %d on" % level)
    return True


def put_margins(draft: Draft) -> None:
    """The margins."""
    if draft.lacks(MARGINS):
        return
    for name in ("layout_margin", "layout_marginLeft", "layout_marginTop", "layout_marginRight", "layout_marginBottom",
                 "layout_marginStart", "layout_marginEnd"):
        draft.put_direct(name)
    for name, sides in (("layout_marginHorizontal", ("Left", "Right")), ("layout_marginVertical", ("Top", "Bottom"))):
        if not is_too_new(draft, name) and "layout_margin" not in draft.node.attributes:
            found = draft.length(name)
            if found is not None and abs(found) <= MAX_MARGIN:
                for side in sides:
                    draft.put("layout_margin" + side, length_of(found))


def put_place(draft: Draft) -> None:
    """Where the view is in its parent."""
    put_sizes(draft)
    put_margins(draft)
    if draft.parent in ("FrameLayout", "ScrollView", *LINES):
        draft.put_direct("layout_gravity")
    if draft.parent in LINES:
        draft.put_direct("layout_weight")
    if draft.parent == "AbsoluteLayout":
        for name, side in (("layout_x", "Left"), ("layout_y", "Top")):
            found = draft.length(name)
            if found is not None and abs(found) <= MAX_MARGIN:
                draft.put("layout_margin" + side, length_of(found))
    if draft.parent == "RelativeLayout":
        put_rules(draft)


def put_rules(draft: Draft) -> None:
    """The rules of a child of a RelativeLayout."""
    for name in SIBLING_RULES:
        draft.put_reference(name)
    for name in PARENT_RULES:
        draft.put_direct(name)
    baseline = draft.find("android:layout_alignBaseline")
    if baseline and baseline.given.is_reference and baseline.given.data:
        draft.put("layout_alignTop", documents.Value(documents.REFERENCE, baseline.given.data))
        why = "the tops are aligned, not the baselines"
        draft.record.approximate("android:layout_alignBaseline", why, Effect.BOUNDS)
    if draft.boolean("layout_alignWithParentIfMissing"):
        siblings = {it.attributes["android:id"].data for it in draft.view.parent.children
                    if "android:id" in it.attributes} if draft.view.parent else set()
        if all(draft.node.attributes[it].word in siblings for it in SIBLING_RULES if it in draft.node.attributes):
            draft.record.no_effect("android:layout_alignWithParentIfMissing", "all views that it names are there")
        else:
            why = "a view that it names is not there"
            draft.record.leave_out("android:layout_alignWithParentIfMissing", why, Effect.BOUNDS)


def background_of(draft: Draft) -> Drawable:
    """The background, with its tint."""
    found = draft.drawable("background")
    for key in ("android:backgroundTint", "app:backgroundTint"):
        if draft.attributes.given(key) is not None and found.colour:
            tint = draft.colour(key)
            if tint is not None:
                alpha = (found.colour >> 24) * (tint >> 24) // 255
                found = replace(found, colour=alpha << 24 | tint & 0xFFFFFF)
    return found


def padding_of(draft: Draft, background: Drawable) -> Edges:
    """Writes the padding, and returns it in pixels from left to right: that of the background counts where there is no
    other."""
    base = background.padding or NO_EDGES
    if not any(base) and draft.lacks(PADDINGS):
        return base
    whole_padding = draft.length("padding")
    if whole_padding is not None and whole_padding >= 0:
        draft.put_direct("padding")
    edges = list(base)
    for number, side in enumerate(SIDES):
        found = draft.length("padding" + side)
        group = "paddingHorizontal" if side in ("Left", "Right") else "paddingVertical"
        if not is_too_new(draft, group):
            grouped = draft.length(group)
            found = grouped if grouped is not None else found
        if found is not None and found >= 0:
            edges[number] = found
        if whole_padding is not None and whole_padding >= 0:
            edges[number] = whole_padding
        elif edges[number] > 0 or found == 0:
            draft.put("padding" + side, length_of(min(edges[number], MAX_MARGIN)))
    for name, number in (("paddingStart", 0), ("paddingEnd", 2)):
        found = draft.length(name)
        if found is not None and found >= 0:
            draft.put_direct(name)
            edges[number] = found
    return edges[0], edges[1], edges[2], edges[3]


def put_least(draft: Draft, background: Drawable) -> Tuple[int, int]:
    """Writes the least size, which a background has too, and returns it in pixels."""
    found = []
    for name, own in (("minWidth", background.width), ("minHeight", background.height)):
        asked = draft.length(name)
        if asked is not None and asked >= max(own, 0):
            draft.put_direct(name)
        elif own > 0:
            draft.put(name, length_of(min(own, MAX_SIZE)))
        found.append(max(asked or 0, own, 0))
    return found[0], found[1]


def depends_on_content(draft: Draft, axis: int) -> bool:
    """Whether the width, on axis 0, or the height of a view depends on what is in it: where it wraps it, matches a
    parent that wraps, or scrolls."""
    size, around = draft.node.attributes[SIZES[axis]], draft.view.parent
    if axis == 1 and draft.parent == "ScrollView":
        return True
    return size == whole(WRAP) or (size == whole(MATCH) and around is not None and around.by_content[axis])


def put_box(draft: Draft) -> Box:
    """Writes what all views have."""
    draft.put_reference("id")
    put_place(draft)
    draft.view.by_content = depends_on_content(draft, 0), depends_on_content(draft, 1)
    background = background_of(draft)
    if background.colour:
        draft.put("background", colour_of(background.colour))
    padding = padding_of(draft, background)
    width, height = put_least(draft, background)
    draft.put_direct("visibility")
    draft.put_direct("layoutDirection")
    click = draft.attributes.given("android:onClick") is not None
    if click:
        draft.use("android:onClick")
    if draft.boolean("clickable", Effect.TOUCH, click) or click:
        draft.put("clickable", boolean_of(True))
    return Box(padding, width, height, background)


def is_wrapped(draft: Draft, name: str) -> bool:
    """Whether the width or the height is that of the content."""
    return draft.node.attributes[name] == whole(WRAP)


def fixed(draft: Draft, name: str) -> Optional[int]:
    """The width or the height in pixels where it is given."""
    value = draft.value(name)
    if value is None or value.type != Type.DIMENSION:
        return None
    found = drawables.pixels(value, draft.app.density)
    return found if found is not None and found >= 0 else None

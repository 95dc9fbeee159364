"""Groups: those that are one of the six classes, and those that are made of these."""
from typing import Dict, List, Optional, Set

from ..layouts.attributes import GRAVITIES, ORIENTATIONS, VISIBILITIES
from ..resources.values import Type, Value
from . import boxes
from .across import AcrossTask
from .baselines import BaselineTask
from .drawables import pixels
from .draft import MATCH, MAX_MARGIN, WRAP, Draft, Node, colour_of, length_of, text_of, whole
from .expansion import View
from .images import BASE_DENSITY, put_content
from .mapper import Mapper
from .report import Effect

DIVIDERS = {"none": 0, "beginning": 1, "middle": 2, "end": 4}
BEGINNING, MIDDLE, END = 1, 2, 4
GONE, INVISIBLE = VISIBILITIES["gone"], VISIBILITIES["invisible"]
VERTICAL = ORIENTATIONS["vertical"]
ACROSS, DOWN, CENTRE_DOWN, TOP, TOP_LEFT = 0x07, 0x70, 0x10, 0x30, 0x33
DRAWER_ROOM = 64
NAVIGATION_WIDTH, TAB_HEIGHT, TOOLBAR_ICON = 280, 48, 56


def dp(draft: Draft, number: int) -> int:
    """A length in pixels of one in dp."""
    return (number * draft.app.density * 2 + BASE_DENSITY) // (2 * BASE_DENSITY)


def map_direct(draft: Draft, mapper: Mapper, arguments: str) -> None:
    """A class that is one of the six, or measures and places as one."""
    boxes.put_box(draft)
    draft.node.kind = draft.kind
    check_gone(draft)
    draft.node.children = mapper.children(draft)


def check_gone(draft: Draft) -> None:
    """Says where children that are gone would count for the size."""
    if draft.boolean("measureAllChildren") and any(is_gone(it) for it in draft.view.children):
        draft.record.leave_out("android:measureAllChildren", "children that are gone have no size", Effect.BOUNDS)


def is_gone(view: View) -> bool:
    """Whether a view is gone from the beginning."""
    found = view.attributes.get("android:visibility")
    return found is not None and (found.data == GONE if found.text is None else found.text == "gone")


def map_linear(draft: Draft, mapper: Mapper, arguments: str) -> None:
    """A line of children, with dividers between; `vertical` or `horizontal` where the class says it."""
    boxes.put_box(draft)
    draft.node.kind = "LinearLayout"
    put_orientation(draft, arguments)
    for name in ("gravity", "weightSum"):
        draft.put_direct(name)
    draft.node.children = mapper.children(draft)
    put_dividers(draft)
    check_line(draft)


def put_orientation(draft: Draft, default: str) -> None:
    """Writes whether a line runs down."""
    draft.put_direct("orientation")
    if "orientation" not in draft.node.attributes and default in ORIENTATIONS:
        draft.put("orientation", whole(ORIENTATIONS[default]))


def is_vertical(node: Node) -> bool:
    """Whether a line runs down."""
    found = node.attributes.get("orientation")
    return found is not None and found.word == VERTICAL


def put_dividers(draft: Draft) -> None:
    """Puts dividers between children: an empty group that matches across has the breadth of the line."""
    keys = ("android:divider", "app:divider"), ("android:showDividers", "app:showDividers")
    divider, shown = (next((it for it in pair if draft.attributes.given(it) is not None), pair[0]) for pair in keys)
    padding = draft.length("app:dividerPadding" if divider.startswith("app") else "dividerPadding") or 0
    flags = draft.number(shown, DIVIDERS) or 0
    if not flags:
        for key in (divider, "android:dividerPadding"):
            if key in draft.own:
                draft.record.no_effect(key, "no divider is shown")
        return
    drawable = draft.drawable(divider)
    down = is_vertical(draft.node)
    thick = drawable.height if down else drawable.width
    if thick <= 0:
        return
    lines: List[Node] = []
    visible = [it for it in draft.node.children if it.attributes.get("visibility") != whole(GONE)]
    for number, child in enumerate(visible):
        if flags & (MIDDLE if number else BEGINNING):
            lines.append(divider_of(draft, thick, padding, drawable.colour))
        lines.append(child)
    if flags & END and visible:
        lines.append(divider_of(draft, thick, padding, drawable.colour))
    gone = [it for it in draft.node.children if it.attributes.get("visibility") == whole(GONE)]
    draft.node.children = lines + gone


def divider_of(draft: Draft, thick: int, padding: int, colour: Optional[int]) -> Node:
    """A divider."""
    node = Node("FrameLayout", record=draft.record, is_added=True)
    sides = ("layout_width", "layout_height") if is_vertical(draft.node) else ("layout_height", "layout_width")
    node.attributes = {sides[0]: whole(MATCH), sides[1]: length_of(thick)}
    for side in (("Left", "Right") if is_vertical(draft.node) else ("Top", "Bottom")) if padding else ():
        node.attributes["layout_margin" + side] = length_of(min(padding, MAX_MARGIN))
    if colour:
        node.attributes["background"] = colour_of(colour)
    return node


def check_line(draft: Draft) -> None:
    """Says what of a line the program does not do: a common baseline, and the largest child as a measure for others."""
    if draft.boolean("measureWithLargestChild") and any("layout_weight" in it.attributes for it in draft.node.children):
        why = "children with a weight are not as large as the largest one"
        draft.place_differently("android:measureWithLargestChild", why, True)
    is_aligned = draft.boolean("baselineAligned", otherwise=True)
    index = draft.number("baselineAlignedChildIndex", {})
    if index is not None and index >= 0:
        draft.record.no_effect("android:baselineAlignedChildIndex", "no parent aligns baselines")
    tops = {} if not is_aligned or is_vertical(draft.node) else tops_of(draft)
    if len(set(tops.values())) > 1:
        children = [draft.node.children[it] for it in tops]
        margins = [margin_at_top(draft, it) for it in children]
        draft.node.placed = lambda node, around: BaselineTask(node, around, children, margins)


def margin_at_top(draft: Draft, child: Node) -> int:
    """The margin at the top of a child, in pixels."""
    found = child.attributes.get("layout_margin") or child.attributes.get("layout_marginTop")
    return (pixels(Value(Type.DIMENSION, found.word), draft.app.density) or 0) if found is not None else 0


def tops_of(draft: Draft) -> Dict[int, object]:
    """How far below the top of a line the texts of its children begin, for those that would share a baseline, by their
    places in the line."""
    found: Dict[int, object] = {}
    for number, child in enumerate(draft.node.children):
        is_text = child.kind == "TextView" or any(it.kind == "TextView" and it.is_added for it in child.children)
        own = child.attributes.get("layout_gravity") or draft.node.attributes.get("gravity") or whole(TOP_LEFT)
        down = own.word & DOWN
        high = child.attributes.get("layout_height")
        if is_text and down == TOP and child.attributes.get("visibility") != whole(GONE) and high != whole(MATCH):
            names = ("padding", "paddingTop", "layout_margin", "layout_marginTop", "minHeight")
            inner = [it for it in child.children if it.is_added and it.kind == "TextView"]
            text = [it.attributes.get("layout_gravity") for it in inner]
            found[number] = tuple(child.attributes.get(it) for it in names), tuple(text), high != whole(WRAP) and high
    return found


def map_relative(draft: Draft, mapper: Mapper, arguments: str) -> None:
    """Children that are placed by rules."""
    boxes.put_box(draft)
    draft.node.kind = "RelativeLayout"
    gravity = draft.flags("gravity", GRAVITIES) or 0
    is_moved = gravity & ACROSS not in (0, 3) or gravity & DOWN not in (0, 0x30)
    if is_moved and draft.view.children:
        key = "android:gravity" if "android:gravity" in draft.own else ""
        draft.place_differently(key, "a RelativeLayout does not move its children together", True)
    draft.use("android:ignoreGravity")
    draft.node.children = mapper.children(draft)


def map_scroll(draft: Draft, mapper: Mapper, arguments: str) -> None:
    """A child that may be higher than the view."""
    boxes.put_box(draft)
    draft.node.kind = "ScrollView"
    draft.put_direct("fillViewport")
    draft.node.children = mapper.children(draft)
    if len(draft.node.children) > 1:
        draft.node.kind = "FrameLayout"
        draft.node.attributes.pop("fillViewport", None)
        draft.place_differently("", "it has several children, which Android refuses: a FrameLayout here")


def map_across(draft: Draft, mapper: Mapper, arguments: str) -> None:
    """A child that may be wider than the view."""
    box = boxes.put_box(draft)
    draft.node.kind = "FrameLayout"
    fills = draft.boolean("fillViewport")
    draft.node.children = mapper.children(draft)
    if len(draft.node.children) == 1 and not is_gone(draft.view.children[0]):
        draft.node.placed = lambda node, around: AcrossTask(node, around, fills, box.across)
    elif len(draft.node.children) > 1:
        draft.place_differently("", "it has several children, which Android refuses: a FrameLayout here")


def map_first(draft: Draft, mapper: Mapper, arguments: str) -> None:
    """One child of several is shown; the others count for the size, unless this is switched off."""
    boxes.put_box(draft)
    draft.node.kind = "FrameLayout"
    counts = draft.boolean("measureAllChildren", otherwise=True)
    draft.node.children = mapper.children(draft)
    for child in draft.node.children[1:]:
        if child.attributes.get("visibility") != whole(GONE):
            child.attributes["visibility"] = whole(INVISIBLE if counts else GONE)


def map_table(draft: Draft, mapper: Mapper, arguments: str) -> None:
    """Rows below one another, each of which shares its columns with the others."""
    boxes.put_box(draft)
    draft.node.kind = "LinearLayout"
    draft.put("orientation", whole(VERTICAL))
    draft.put_direct("gravity")
    draft.node.children = mapper.children(draft, "TableLayout")
    put_dividers(draft)
    for child in draft.node.children:
        child.attributes["layout_width"] = whole(MATCH)
    stretched = columns_of(draft, "stretchColumns")
    shrunk = columns_of(draft, "shrinkColumns")
    rows = [it for it in draft.node.children if it.record is not None and it.record.row == "TableRow"]
    for row in rows:
        for number, cell in enumerate(row.children):
            if number in stretched or -1 in stretched:
                cell.attributes["layout_weight"] = whole(1)
    if stretched or shrunk or not is_even(rows):
        draft.place_differently("", "columns have the width of each row's own cells")
        for row_view in draft.view.children:
            for cell_view in row_view.children:
                why = "in a TableLayout: columns have the width of each row's own cells"
                cell_view.record.approximate("", why, Effect.BOUNDS)


def columns_of(draft: Draft, name: str) -> Set[int]:
    """The numbers of some columns, -1 for all."""
    text = draft.text(name)
    parts = [it.strip() for it in (text or "").split(",")]
    return {-1} if "*" in parts else {int(it) for it in parts if it.isdigit()}


def is_even(rows: List[Node]) -> bool:
    """Whether the columns of rows have the same width in each of them: one row alone, or widths that are given."""
    shown = [[it.attributes["layout_width"] for it in row.children] for row in rows]
    is_given = all(it not in (whole(WRAP), whole(MATCH)) for row in shown for it in row)
    return len(rows) < 2 or all(len(row) < 2 for row in shown) or (is_given and all(row == shown[0] for row in shown))


def map_row(draft: Draft, mapper: Mapper, arguments: str) -> None:
    """A row of a table."""
    boxes.put_box(draft)
    draft.node.kind = "LinearLayout"
    for name in ("gravity", "weightSum"):
        draft.put_direct(name)
    draft.node.children = mapper.children(draft, "TableRow")
    put_dividers(draft)


def map_absolute(draft: Draft, mapper: Mapper, arguments: str) -> None:
    """Children at places that are given."""
    boxes.put_box(draft)
    draft.node.kind = "FrameLayout"
    draft.node.children = mapper.children(draft, "AbsoluteLayout")


def map_fragment(draft: Draft, mapper: Mapper, arguments: str) -> None:
    """The place of a fragment."""
    boxes.put_box(draft)
    draft.node.kind = "FrameLayout"
    for key in ("class", "android:name"):
        draft.use(key)
    draft.node.children = mapper.children(draft)


def key_of(draft: Draft, name: str) -> str:
    """The key of an attribute that a library has, or else Android."""
    return "app:" + name if draft.attributes.given("app:" + name) is not None else "android:" + name


def map_toolbar(draft: Draft, mapper: Mapper, arguments: str) -> None:
    """An icon, a title, and children in a line."""
    box = boxes.put_box(draft)
    draft.node.kind = "LinearLayout"
    draft.put("gravity", whole(CENTRE_DOWN))
    inset = draft.length(key_of(draft, "contentInsetStart"))
    icon = draft.attributes.given(key_of(draft, "navigationIcon"))
    title = draft.text(key_of(draft, "title"))
    for name in ("contentInsetEnd", "contentInsetLeft", "contentInsetRight", "contentInsetStartWithNavigation"):
        draft.use(key_of(draft, name))
    children = mapper.children(draft)
    added = []
    if icon is not None and not icon[0].is_null:
        draft.use(key_of(draft, "navigationIcon"))
        added.append(square(draft, dp(draft, TOOLBAR_ICON)))
    elif inset is not None and inset > box.padding[0] and (children or title):
        draft.put("paddingLeft", length_of(inset))
        draft.node.attributes.pop("paddingStart", None)
    if title:
        added.append(title_of(draft, title))
    draft.node.children = added + children
    if draft.node.children:
        draft.place_differently("", "a toolbar places its icons, titles and children by rules of its own")


def square(draft: Draft, side: int) -> Node:
    """An icon as a view."""
    node = Node("View", record=draft.record, is_added=True)
    node.attributes = {"layout_width": length_of(side), "layout_height": length_of(side)}
    return node


def title_of(draft: Draft, title: str) -> Node:
    """A title as a view."""
    node = Node("TextView", record=draft.record, is_added=True)
    node.attributes = {"layout_width": whole(WRAP), "layout_height": whole(WRAP), "text": text_of(title)}
    colour = draft.colour(key_of(draft, "titleTextColor"))
    node.attributes["textColor"] = colour_of(colour if colour is not None else 0xDE000000)
    return node


def map_coordinator(draft: Draft, mapper: Mapper, arguments: str) -> None:
    """A bar at the top with the content below it, and what floats over both."""
    boxes.put_box(draft)
    draft.node.kind = "FrameLayout"
    nodes = mapper.children(draft)
    pairs = list(zip(draft.view.children, nodes))
    bars = [node for view, node in pairs if view.name.endswith("AppBarLayout")]
    below = [(view, node) for view, node in pairs if is_below_bar(view)]
    if len(bars) == 1 and below:
        column = Node("LinearLayout", record=draft.record, is_added=True)
        column.attributes = {
            "layout_width": whole(MATCH), "layout_height": whole(MATCH), "orientation": whole(VERTICAL),
        }
        frame = Node("FrameLayout", record=draft.record, is_added=True)
        frame.attributes = {"layout_width": whole(MATCH), "layout_height": length_of(0), "layout_weight": whole(1)}
        frame.children = [node for _, node in below]
        column.children = [bars[0], frame]
        floating = [node for _, node in pairs if node is not bars[0] and node not in frame.children]
        draft.node.children = [column, *floating]
        if any("app:layout_scrollFlags" in it.attributes for it in below_of(draft.view)):
            for view, _ in below:
                why = "in a %s: the content is as high as it is while the bar is open" % draft.record.row
                view.record.approximate("", why, Effect.BOUNDS)
    else:
        draft.node.children = nodes
    for view, node in pairs:
        check_anchor(view, node)


def below_of(view: View) -> List[View]:
    """All views below a view."""
    found = []
    for child in view.children:
        found += [child, *below_of(child)]
    return found


def is_below_bar(view: View) -> bool:
    """Whether a child is placed below the bar."""
    found = view.attributes.get("app:layout_behavior")
    return found is not None and (found.text or "").endswith("ScrollingViewBehavior")


def check_anchor(view: View, node: Node) -> None:
    """Says of a child that is placed at another one that it is not."""
    if "app:layout_anchor" in view.attributes:
        view.record.leave_out("app:layout_anchor", "it is not placed at another view", Effect.BOUNDS)
        view.record.leave_out("app:layout_anchorGravity", "it is not placed at another view", Effect.BOUNDS)


def map_drawer(draft: Draft, mapper: Mapper, arguments: str) -> None:
    """A content that fills the view, and drawers that are closed."""
    boxes.put_box(draft)
    draft.node.kind = "FrameLayout"
    draft.node.children = mapper.children(draft)
    for view, node in zip(draft.view.children, draft.node.children):
        gravity = node.attributes.get("layout_gravity")
        if gravity is not None and gravity.word & ACROSS in (3, 5):
            node.attributes["visibility"] = whole(INVISIBLE)
            name = "layout_marginRight" if gravity.word & ACROSS == 3 else "layout_marginLeft"
            node.attributes.setdefault(name, length_of(dp(draft, DRAWER_ROOM)))
            why = "a drawer that is closed is at its edge, invisible; on a device beyond it"
            view.record.approximate("", why, Effect.BOUNDS)
        else:
            node.attributes.update(layout_width=whole(MATCH), layout_height=whole(MATCH))


def map_swipe(draft: Draft, mapper: Mapper, arguments: str) -> None:
    """A child that fills the view."""
    boxes.put_box(draft)
    draft.node.kind = "FrameLayout"
    draft.node.children = mapper.children(draft)
    for child in draft.node.children[:1]:
        child.attributes.update(layout_width=whole(MATCH), layout_height=whole(MATCH))
    if boxes.is_wrapped(draft, "layout_width") or boxes.is_wrapped(draft, "layout_height"):
        draft.place_differently("", "it takes what there is; as large as its child here")


def map_card(draft: Draft, mapper: Mapper, arguments: str) -> None:
    """A frame with a colour, and the padding of its content in place of its own."""
    boxes.put_box(draft)
    draft.node.kind = "FrameLayout"
    for name in ("padding", "paddingLeft", "paddingTop", "paddingRight", "paddingBottom", "paddingStart", "paddingEnd"):
        draft.node.attributes.pop(name, None)
        if "android:" + name in draft.own:
            draft.record.no_effect("android:" + name, "a card has the padding of its content alone")
    every = draft.length("app:contentPadding") or 0
    for side in ("Left", "Top", "Right", "Bottom"):
        found = draft.length("app:contentPadding" + side)
        size = every if found is None else found
        if size > 0:
            draft.put("padding" + side, length_of(min(size, MAX_MARGIN)))
    colour = draft.colour("app:cardBackgroundColor")
    if colour:
        draft.put("background", colour_of(colour))
    if draft.boolean("app:cardUseCompatPadding"):
        draft.record.leave_out("app:cardUseCompatPadding", "there is no room for a shadow", Effect.BOUNDS)
    draft.node.children = mapper.children(draft)


def map_tabs(draft: Draft, mapper: Mapper, arguments: str) -> None:
    """A line of tabs, which are there with the code of the app."""
    box = boxes.put_box(draft)
    put_content(draft, box, 0, dp(draft, TAB_HEIGHT))
    if draft.view.children:
        draft.record.approximate("", "tabs are not shown", Effect.PICTURE)
    draft.node.children = mapper.children(draft)


def map_navigation(draft: Draft, mapper: Mapper, arguments: str) -> None:
    """A menu of at most 280 dp."""
    boxes.put_box(draft)
    draft.node.kind = "FrameLayout"
    if boxes.is_wrapped(draft, "layout_width"):
        draft.put("layout_width", length_of(dp(draft, NAVIGATION_WIDTH)))
    draft.node.children = mapper.children(draft)


def map_list(draft: Draft, mapper: Mapper, arguments: str) -> None:
    """A list: as wide as there is room, and as high as its items, of which it has none before the code of the app."""
    boxes.put_box(draft)
    draft.node.kind = "FrameLayout"
    for key in ("android:entries", "tools:listitem"):
        if key == "android:entries" and draft.attributes.given(key) is not None:
            draft.record.leave_out(key, "the entries are not shown", Effect.CONTENT)
    items = mapper.children(draft)
    line = Node("LinearLayout" if items else "View", record=draft.record, is_added=True)
    line.attributes = {"layout_width": whole(MATCH), "layout_height": whole(WRAP) if items else length_of(0)}
    if items:
        line.attributes["orientation"] = whole(VERTICAL)
        line.children = items
    draft.node.children = [line]


def map_recycler(draft: Draft, mapper: Mapper, arguments: str) -> None:
    """A list without a size of its own before its items are there."""
    boxes.put_box(draft)
    draft.node.kind = "FrameLayout"
    items = mapper.children(draft)
    if items:
        line = Node("LinearLayout", record=draft.record, is_added=True)
        line.attributes = {
            "layout_width": whole(MATCH), "layout_height": whole(WRAP), "orientation": whole(VERTICAL),
        }
        line.children = items
        draft.node.children = [line]


def map_pager(draft: Draft, mapper: Mapper, arguments: str) -> None:
    """Pages, which are there with the code of the app: it takes what there is."""
    boxes.put_box(draft)
    children = mapper.children(draft)
    draft.node.kind = "FrameLayout" if children else "View"
    draft.node.children = children
    if children:
        draft.place_differently("", "it takes what there is; as large as its children here")


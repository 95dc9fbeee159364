"""GridLayouts: rows of cells, each a line. A cell takes as many columns as it says; one with a weight, or that fills
its column, shares the room of its row."""
from typing import List, NamedTuple, Optional, Tuple

from ..layouts.attributes import ORIENTATIONS
from . import boxes
from .draft import MATCH, WRAP, Draft, Node, float_of, whole
from .expansion import View
from .mapper import Mapper

ROW = "android:layout_row", "app:layout_row"
COLUMN = "android:layout_column", "app:layout_column"
SPAN = "android:layout_columnSpan", "app:layout_columnSpan"
WEIGHT = "android:layout_columnWeight", "app:layout_columnWeight"
GRAVITY = "android:layout_gravity", "app:layout_gravity"
ACROSS = 0x07


class Cell(NamedTuple):
    """Where a child is: its row and its column, where it says them, how many columns it takes, and its element."""

    row: Optional[int]
    column: Optional[int]
    span: int
    node: Node


def number_of(view: View, keys: Tuple[str, ...]) -> Optional[int]:
    """A whole number of a child, by the first of some attributes that it has."""
    value = next((view.attributes[it] for it in keys if it in view.attributes), None)
    return value.number() if value is not None and value.is_int else None


def fills(view: View) -> bool:
    """Whether a child is as wide as its column."""
    value = next((view.attributes[it] for it in GRAVITY if it in view.attributes), None)
    if value is None:
        return False
    words = (value.text or "").split("|")
    return bool({"fill", "fill_horizontal"} & set(words)) if value.text else value.data & ACROSS == ACROSS


def cell_of(view: View, node: Node) -> Cell:
    """The cell of a child, whose weight is written."""
    given = next((view.attributes[it] for it in WEIGHT if it in view.attributes), None)
    weight = float_of(given) if given is not None else None
    if weight is not None or fills(view):
        node.attributes["layout_weight"] = weight or whole(1)
    return Cell(number_of(view, ROW), number_of(view, COLUMN), max(number_of(view, SPAN) or 1, 1), node)


def rows_of(cells: List[Cell], columns: int) -> List[List[Node]]:
    """The cells of each row: one that says its row begins it, and all have the same number of columns."""
    rows: List[List[Node]] = []
    taken, row = columns, -1
    for it in cells:
        if taken + it.span > columns or (it.row is not None and it.row > row):
            rows.append([])
            taken, row = 0, it.row if it.row is not None else row + 1
        rows[-1].append(it.node)
        taken += it.span
    return rows


def map_grid(draft: Draft, mapper: Mapper, arguments: str) -> None:
    """Rows of as many cells as there are columns."""
    boxes.put_box(draft)
    draft.node.kind = "LinearLayout"
    columns = draft.number("columnCount", {}) or draft.number("app:columnCount", {}) or 0
    runs_down = draft.number("orientation", ORIENTATIONS) == ORIENTATIONS["vertical"]
    draft.put("orientation", whole(ORIENTATIONS["vertical"]))
    for key in ("android:rowCount", "app:rowCount"):
        draft.use(key)
    for view in draft.view.children:
        for key in (*ROW, *COLUMN, *SPAN, *WEIGHT, *GRAVITY):
            if key in view.attributes:
                view.record.use(key)
    nodes = mapper.children(draft, "GridLayout")
    cells = [cell_of(view, node) for view, node in zip(draft.view.children, nodes)]
    known = [it.column + it.span for it in cells if it.column is not None]
    most = columns or (1 if runs_down else max([*known, sum(it.span for it in cells) if not known else 1]))
    for nodes_of_row in rows_of(cells, most):
        row = Node("LinearLayout", record=draft.record, is_added=True)
        row.attributes = {"layout_width": whole(MATCH), "layout_height": whole(WRAP)}
        row.children = nodes_of_row
        draft.node.children.append(row)

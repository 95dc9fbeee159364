"""Maps the views of a layout, one after the other, by the rows of the table."""
from typing import Callable, Dict, List, NamedTuple

from . import effects
from .dex import Classes
from .draft import App, Draft, Node
from .expansion import View
from .report import Effect
from .widget_table import Row, Table

# what a class is by the end of its name, where nothing else is known of it
ENDS = (
    "LinearLayout", "RelativeLayout", "FrameLayout", "ConstraintLayout", "MotionLayout", "CoordinatorLayout",
    "DrawerLayout", "SwipeRefreshLayout", "TabLayout", "TableLayout", "GridLayout", "HorizontalScrollView", "ScrollView",
    "AutoCompleteTextView", "CheckedTextView", "TextView", "EditText", "ImageButton", "RadioButton", "ToggleButton",
    "FloatingActionButton", "Button", "CheckBox", "Switch", "Spinner", "SeekBar", "RatingBar", "ProgressBar", "ImageView",
    "ListView", "GridView", "RecyclerView", "ViewPager", "ViewPager2", "WebView", "CardView", "Toolbar",
)
# what less plain names are by their end
OTHER_ENDS = {"Layout": "FrameLayout", "Text": "TextView"}
# methods by which a class measures or places in a way of its own
OWN_RULES = ("onMeasure", "onLayout", "measureChild", "measureChildWithMargins", "setMeasuredDimension")

Rule = Callable[["Draft", "Mapper", str], None]


class Match(NamedTuple):
    """The row of a class, and why the class is not exactly what the row says."""

    row: Row
    why: str


def put_flags(draft: Draft) -> None:
    """What groups have."""
    draft.put_direct("clipToPadding")
    draft.put_direct("splitMotionEvents")


class Mapper:
    """Maps the views of an app."""

    def __init__(self, app: App, table: Table, rules: Dict[str, Rule], classes: Classes):
        self.app, self.table, self.rules, self.classes = app, table, rules, classes

    def match(self, view: View) -> Match:
        """The row of a view's class: its own, or that of the nearest class that it extends, by the code of the app;
        or by its name."""
        row = self.table.row(view.name)
        if row is not None:
            return Match(row, row.why)
        chain = self.classes.chain(view.name)
        for number, name in enumerate(chain):
            row = self.table.row(name)
            if row is not None:
                own = self.classes.overrides(chain[:number], OWN_RULES)
                why = "%s has a method %s of its own" % (own[0], own[1]) if own else row.why
                return Match(row, why)
        plain = view.name.rpartition(".")[2]
        named = next((it for it in (*ENDS, *OTHER_ENDS) if plain.endswith(it)), None)
        fit = OTHER_ENDS.get(named, named) if named else "FrameLayout" if view.children else "View"
        row = self.table.row(fit)
        assert row is not None
        by = "its name" if named else "its children" if view.children else "its lack of children"
        return Match(row, "the class is not known: as a %s, by %s" % (fit, by))

    def map(self, view: View, parent: str) -> Node:
        """The element of a view, with what is in it."""
        row, why = self.match(view)
        rule = self.rules[row.rule]
        kind = row.kind
        if view.children and kind in ("View", "TextView") and row.rule not in ("stub", "gone", "fill"):
            rule, kind = self.rules["direct"], "FrameLayout"
        view.record.row = row.name
        draft = Draft(view, self.app, row.styles, parent)
        view.record.values = draft.attributes
        if kind != row.kind:
            draft.place_differently("", "a %s with children: a FrameLayout here" % row.name)
        if why:
            draft.place_differently("", why)
        draft.kind = kind
        rule(draft, self, row.arguments)
        if draft.view.children:
            put_flags(draft)
        view.record.kind = draft.node.kind
        view.record.settle(any(view.by_content))
        self.rest(draft, parent, self.table.row(view.name) is not None)
        return draft.node

    def rest(self, draft: Draft, parent: str, is_known: bool) -> None:
        """Says of the attributes that nothing has used what becomes of them."""
        for key in draft.record.keys:
            if key not in draft.record.fates:
                effects.fate_of_rest(draft.record, key, parent, is_known)
        # an item of a style that has an effect on bounds, and was not looked at, is left out
        for key in draft.attributes.keys_of_styles():
            if key in effects.IN_STYLES and key not in draft.read and key not in draft.own:
                draft.record.leave_out("", "%s of its style: %s" % (key, effects.WHY[Effect.BOUNDS]), Effect.BOUNDS)

    def children(self, draft: Draft, parent: str = "") -> List[Node]:
        """The elements of the children of a view."""
        kind = parent or draft.node.kind
        return [self.map(it, kind) for it in draft.view.children]

    def leave_children(self, draft: Draft, why: str) -> None:
        """Leaves out what is in a view."""
        left = list(draft.view.children)
        while left:
            view = left.pop()
            view.record.row = view.record.row or "-"
            view.record.leave_out("", "it is left out: " + why, Effect.BOUNDS)
            for key in view.record.keys:
                if key not in view.record.fates:
                    view.record.leave_out(key, "its view is left out", Effect.BOUNDS)
            left += view.children

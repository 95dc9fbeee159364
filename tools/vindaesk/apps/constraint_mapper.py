"""ConstraintLayouts: their children in a frame, which are placed when all of the layout is mapped."""
from typing import Optional, Set

from ..layouts.attributes import VISIBILITIES
from . import boxes
from .constraint_solver import ConstraintTask
from .constraints import (
    BASELINE, GONE, Child, Constraints, Tie, barrier_of, circle_of, id_of, line_of, ratio_of, references, target_of,
    tie_of
)
from .draft import Draft, length_of, whole
from .expansion import View
from .mapper import Mapper
from .report import Effect

# helpers that place views by rules of their own
PLACERS = ("Flow", "Placeholder", "CircularFlow", "Carousel")


def helper(view: View, draft: Draft, found: Constraints) -> bool:
    """Takes an element that is no view that is seen."""
    plain = view.name.rpartition(".")[2]
    if plain == "Guideline":
        found.lines.append(line_of(view, draft))
    elif plain == "Barrier":
        found.lines.append(barrier_of(view, draft))
    elif plain in ("Group", "Layer"):
        references(draft)
    else:
        return False
    return True


def say_placed(view: View, draft: Draft) -> None:
    """Says of the views that a helper places that it does not."""
    plain = view.name.rpartition(".")[2]
    own = set(references(draft)) if plain in PLACERS else set()
    for it in view.parent.children if own and view.parent else ():
        if id_of(it) in own:
            it.record.approximate("", "a %s places it by rules of its own: not placed here" % plain, Effect.BOUNDS)


def map_helper(draft: Draft, mapper: Mapper, arguments: str) -> None:
    """An element that is there for the places of others alone."""
    boxes.put_box(draft)
    draft.put("visibility", whole(GONE))
    for name in ("layout_width", "layout_height"):
        draft.put(name, length_of(0))


def baseline_of(draft: Draft) -> Optional[int]:
    """The view whose text has the same baseline."""
    draft.use(BASELINE)
    return target_of(draft.own.get(BASELINE))


def map_constraint(draft: Draft, mapper: Mapper, arguments: str) -> None:
    """Children in a frame, which are placed when all of the layout is mapped."""
    box = boxes.put_box(draft)
    draft.node.kind = "FrameLayout"
    found = Constraints(draft.node, box.padding)
    gone: Set[int] = set()
    for view in draft.view.children:
        if view.name.rpartition(".")[2] == "Group":
            group = Draft(view, mapper.app, [], "ConstraintLayout")
            if group.number("visibility", VISIBILITIES) == GONE:
                gone |= set(references(group))
    for place, view in enumerate(draft.view.children):
        own = Draft(view, mapper.app, [], "ConstraintLayout")
        is_helper = helper(view, own, found)
        say_placed(view, own)
        ratio, axis = (None, None) if is_helper else ratio_of(own)
        ties = (Tie(), Tie()) if is_helper else (tie_of(own, 0), tie_of(own, 1))
        baseline, circle = (None, None) if is_helper else (baseline_of(own), circle_of(own))
        node = mapper.map(view, "ConstraintLayout")
        draft.node.children.append(node)
        if is_helper or id_of(view) in gone:
            node.attributes["visibility"] = whole(GONE)
        if not is_helper:
            is_gone = node.attributes.get("visibility") == whole(GONE)
            number = id_of(view) or -1 - place
            found.children.append(Child(number, node, ties, is_gone, ratio, axis, baseline, circle))
    if found.children:
        draft.node.placed = lambda node, around: ConstraintTask(found, around)
    if draft.attributes.given("app:layoutDescription") is not None:
        draft.place_differently("app:layoutDescription", "the constraints of its scene are left out", True)

"""Which constraints have no effect. Of those that may have none, each is taken away, the program lays the tree out
without it, and it is put back: where all bounds are the same, it has none."""
from typing import Dict, Iterator, List, NamedTuple, Optional, Tuple

from ..scripts.replies import Part
from ..views.placement import Placed
from ..views.view_tree import View
from . import asking
from .asking import FRAMES, Run

BOUNDS = b"bounds"
# the words of gravities that lines have
SAYABLE = {"left", "right", "start", "end", "center_horizontal", "top", "bottom", "center_vertical", "center"}
MAIN = {"horizontal": "width", "vertical": "height"}


class Trial(NamedTuple):
    """A constraint of a view that is tried: its words, the line that takes it away, and the one that puts it back."""

    number: int
    what: str
    off: bytes
    back: bytes


def weight_words(text: str) -> str:
    """A weight as a line has it: whole ones and 256ths."""
    whole, part = divmod(round(float(text) * 256), 256)
    return "%d %d" % (whole, part)


def anchor_of(view: View, name: str) -> Optional[View]:
    """The sibling that a rule names: the last one of this id, as the group takes it; none where there is none."""
    siblings = view.parent.children.values() if view.parent else []
    found = [it for it in siblings if it.id and "@%x" % it.id == "@%s" % name.lstrip("@").lstrip("0")]
    return found[-1] if found else None


def rules_of(view: View) -> Iterator[Trial]:
    """The rules of a view that name a sibling which is gone, or none."""
    for verb, name in view.rules.items():
        if name == "yes":
            continue
        anchor = anchor_of(view, name)
        if anchor is None or anchor.visibility == "gone":
            line = b"rule v%d %s " % (view.number, verb.encode())
            yield Trial(view.number, "rule " + verb, line + b"@0", line + name.encode())


def weight_of(view: View, around: View) -> Iterator[Trial]:
    """The weight of a view in a line along which it is as large as this already."""
    weight = view.given.get("weight")
    main = MAIN[around.given.get("orientation") or "horizontal"]
    if weight and float(weight) > 0 and view.given.get(main) == "match":
        line = b"weight v%d " % view.number
        yield Trial(view.number, "weight", line + b"0", line + weight_words(weight).encode())


def gravity_of(view: View) -> Iterator[Trial]:
    """The gravity of a view in its parent."""
    words = view.given.get("gravity")
    if words and words != "none" and set(words.split("|")) <= SAYABLE:
        line = b"gravity v%d self " % view.number
        yield Trial(view.number, "gravity", line + b"none", line + words.encode())


def candidates(view: View) -> Iterator[Trial]:
    """The constraints of a view that may have no effect."""
    around = view.parent
    if around is None or view.visibility == "gone":
        return
    yield from rules_of(view)
    if around.kind == "LinearLayout":
        yield from weight_of(view, around)
    elif around.kind == "RelativeLayout":
        yield from gravity_of(view)


def without_effect(run: Run, placed: List[Placed]) -> Dict[Tuple[int, str], Trial]:
    """The constraints without effect, by the view's number and their words."""
    tried = [it for at in placed if at.bounds for it in candidates(at.view)]
    if not tried:
        return {}
    wanted = asking.bounds_lines(placed)
    parts = [Part([*([line] if line else []), *FRAMES, BOUNDS]) for it in tried for line in (it.off, it.back)]
    lines = [[line for line in answer.replies if line.startswith(b"v")] for answer in run.answers(parts)]
    found = {}
    for place, it in enumerate(tried):
        without, again = lines[2 * place], lines[2 * place + 1]
        if again != wanted:
            break
        if without == wanted:
            found[it.number, it.what] = it
    return found

"""Which views the keys of a remote control or a keyboard reach, by the program's `focus`."""
from typing import List, Sequence, Set

from ..program.calls import SIDES
from ..views.view_tree import View
from .asking import Run

# the sides in the order in which most screens are walked through, so that few questions are asked
ORDER = ("down", "right", "up", "left")
assert sorted(ORDER) == sorted(SIDES)


def reached(run: Run, views: Sequence[View]) -> Set[int]:
    """The numbers of the views that the focus reaches from the first of some, in preorder, by any number of keys."""
    wanted = {it.number for it in views}
    if len(wanted) < 2:
        return wanted
    left: List[int] = [views[0].number]
    found = {views[0].number}
    while left and not wanted <= found:
        at = left.pop()
        for side in ORDER:
            other = run.focus(side, at)
            if other and other not in found:
                found.add(other)
                left.append(other)
            if wanted <= found:
                break
    return found

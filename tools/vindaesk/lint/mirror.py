"""The same tree in the other direction."""
from typing import Dict, List

from ..scripts.replies import Part
from ..views import placement
from ..views.placement import Placed
from .asking import FRAMES, Run


def mirrored(run: Run, placed: List[Placed]) -> Dict[int, Placed]:
    """The views where the root runs from right to left, or from left to right if it ran the other way, by their
    numbers; none where no frame settles there."""
    if not placed:
        return {}
    root = placed[0].view
    direction = b"ltr" if root.given.get("direction") == "rtl" else b"rtl"
    line = b"direction v%d %s" % (root.number, direction)
    (_, answer) = run.answers([Part([line, *FRAMES]), Part([b"bounds"])])
    if answer.refusals:
        return {}
    return {it.view.number: it for it in placement.all_placed(root, answer.replies)}

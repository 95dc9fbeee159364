"""All that rules may ask of what is laid out in one configuration. What takes another run of the program is asked when
a rule first needs it."""
import math
from functools import cached_property
from typing import Dict, FrozenSet, List, Optional, Tuple

from ..scripts.script import Window
from ..views import placement, text_sizes
from ..views.placement import Placed
from ..views.screens import PLAIN_DPI
from ..views.text_sizes import Need
from . import keys, mirror, painting, trials
from .asking import Run
from .painting import Painted
from .seen import Seen
from .trials import Trial


class Page:
    """What is laid out: all views that are seen, by their numbers in preorder; `placed` has all others too."""

    def __init__(self, run: Run, placed: List[Placed], window: Window, dpi: int):
        self.run, self.placed, self.window, self.dpi = run, placed, window, dpi
        self.views = seen_in(placed)

    def dp(self, pixels: int) -> float:
        """Pixels in dp, in tenths rounded down."""
        return math.floor(10 * pixels * PLAIN_DPI / self.dpi) / 10

    def size(self, width: int, height: int) -> str:
        """Two sides in words."""
        return "%g by %g dp" % (self.dp(width), self.dp(height))

    def parent(self, it: Seen) -> Optional[Seen]:
        """The view around another; none for the root."""
        return self.views[it.view.parent.number] if it.view.parent else None

    def children(self, it: Seen) -> List[Seen]:
        """The children of a view that are seen."""
        return [self.views[key] for key in it.view.children if key in self.views]

    def siblings_after(self, it: Seen) -> List[Seen]:
        """The later children of a view's parent."""
        children = it.view.parent.children if it.view.parent else {}
        return [self.views[key] for key in children if key > it.view.number and key in self.views]

    def around(self, it: Seen) -> List[Seen]:
        """The views around a view, from its parent to the root."""
        found, at = [], self.parent(it)
        while at is not None:
            found.append(at)
            at = self.parent(at)
        return found

    @cached_property
    def needs(self) -> Dict[int, Need]:
        """What each text that is seen needs, by the number of its view."""
        return text_sizes.needs(list(self.run.parts), self.run.folder, [it for it in self.placed if it.view.number in self.views])

    @cached_property
    def painted(self) -> Optional[Painted]:
        """What the pixels of the last frame say; None where lines after it would change them."""
        return painting.painted(self.run, self.placed, self.window)

    @cached_property
    def mirrored(self) -> Dict[int, Placed]:
        """The views in the other direction, by their numbers."""
        return mirror.mirrored(self.run, self.placed)

    @cached_property
    def reached(self) -> FrozenSet[int]:
        """The numbers of the views that the focus reaches from the first that answers clicks."""
        return frozenset(keys.reached(self.run, [it.view for it in self.views.values() if it.view.answer == "click"]))

    @cached_property
    def without_effect(self) -> Dict[Tuple[int, str], Trial]:
        """Constraints without which the bounds of all views are the same, by the view's number and the constraint."""
        return trials.without_effect(self.run, self.placed)


def seen_in(views: List[Placed]) -> Dict[int, Seen]:
    """The views that are seen, by their numbers."""
    found = [(it.view, it.bounds, it.window, it.scroll) for it in placement.seen(views)]
    return {it.number: Seen(it, bounds, window, scroll) for it, bounds, window, scroll in found if bounds and window}

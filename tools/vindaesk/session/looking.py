"""What there is to see of a session: the views, where they are, and the picture of the last frame."""
from typing import Dict, List, Optional

from ..common import files
from ..pictures import frames, png
from ..views import placement
from ..views.placement import Box, Placed
from ..views.view_tree import View
from . import checked, finding
from .carrier import Carrier
from .finding import By
from .results import Bounds, Node, Viewed, called, node_of


class Looking(Carrier):
    """What the last frame left. Nothing here waits: a frame has settled or it has not, so an answer is final."""

    def bounds(self, view: Viewed) -> Optional[Bounds]:
        """Where a view lies in its parent, in pixels; None where it has no bounds."""
        words = self._one("bounds %s" % called(view)).split(" ")
        if words[1] == "none":
            return None
        left, top, right, bottom = map(int, words[1:5])
        return Bounds(left, top, right, bottom, int(words[6]) if len(words) == 7 else None)

    def tree(self) -> List[Node]:
        """All views in preorder, each with its place in its parent and in the window, and what is seen of it."""
        return self.nodes_of(self.placed())

    def nodes_of(self, views: List[Placed]) -> List[Node]:
        """The same of what `placed` returned."""
        boxes = placement.shown(views, self.window_size)
        return [node_of(it, boxes.get(it.view.number)) for it in views]

    def placed(self) -> List[Placed]:
        """The same with more of each view, for tools."""
        lines = self._carried_out(b"bounds", self._carries.until_mark)
        return placement.all_placed(self._views.root, lines)

    def find(
        self,
        *,
        text: Optional[str] = None,
        text_contains: Optional[str] = None,
        id: Optional[str] = None,
        cls: Optional[str] = None,
        clickable: Optional[bool] = None,
        below: Optional[Viewed] = None,
    ) -> Node:
        """The first view in preorder of which something is seen and that is so; none is a NotFound."""
        by = By(text, text_contains, id, cls, clickable, self._number(below))
        nodes = self.tree()
        found = finding.found(nodes, by)
        if not found:
            raise finding.missing(nodes, by)
        return found[0]

    def find_all(
        self,
        *,
        text: Optional[str] = None,
        text_contains: Optional[str] = None,
        id: Optional[str] = None,
        cls: Optional[str] = None,
        clickable: Optional[bool] = None,
        below: Optional[Viewed] = None,
    ) -> List[Node]:
        """All of them in preorder, and none where there are none."""
        return finding.found(self.tree(), By(text, text_contains, id, cls, clickable, self._number(below)))

    def _number(self, view: Optional[Viewed]) -> Optional[str]:
        """A view by its number, as `v3`."""
        return None if view is None else self._one("bounds %s" % called(view)).split(" ")[0]

    def in_window(self, view: Viewed) -> Optional[Box]:
        """Where a view lies in the window, which it may leave, in pixels; None where it has no bounds."""
        return self._around(view)[-1].window

    def seen(self, view: Viewed) -> Optional[Box]:
        """The part of a view that lies within all views around it and the window; None where there is none."""
        boxes = [it.window for it in self._around(view)]
        if None in boxes or self.window_size is None:
            return None
        sides = list(zip((0, 0, *self.window_size), *boxes))
        left, top, right, bottom = max(sides[0]), max(sides[1]), min(sides[2]), min(sides[3])
        return (left, top, right, bottom) if left < right and top < bottom else None

    def _around(self, view: Viewed) -> List[Placed]:
        """The views from the root to one, each where it lies."""
        first = self._one("bounds %s" % called(view))
        path: List[Optional[View]] = [self._views.views[int(first.split(" ")[0][1:])]]
        while path[-1] is not None:
            path.append(path[-1].parent)
        found: Dict[int, Placed] = {}
        for it in reversed(path):
            if it is not None:
                words = self._carried_out(b"bounds v%d" % it.number, self._carries.single)[0].split(b" ")
                found[it.number] = placement.placed(it, words, found)
        return list(found.values())

    def digest(self) -> str:
        """The SHA-256 of the picture of the last frame."""
        return self._one("digest")

    def picture(self) -> png.Picture:
        """The picture of the last frame."""
        width, height = self.window_size or (1, 1)
        lines = [
            row for line in frames.asked(self.window_size) for row in self._carried_out(line, self._carries.until_mark)
        ]
        return png.Picture(width, height, [bytes.fromhex(row.decode()) for row in lines])

    def screenshot(self, path: str, scale: int = 1) -> None:
        """Writes that as a PNG file, whole or not at all; a pixel is `scale` by `scale`."""
        checked.path(path)
        checked.scale(scale)
        files.replace(path, png.written(self.picture(), scale))

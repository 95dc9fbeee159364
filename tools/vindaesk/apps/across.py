"""A HorizontalScrollView: what is in it may be wider than it. A margin below 0 gives it room to be measured; then its
width is written."""
from typing import Optional

from .draft import MATCH, MAX_MARGIN, MAX_SIZE, WRAP, Node, length_of, whole
from .placing import MAX_ROUNDS, Seen, Task
from .report import Effect

MARGIN, WIDTH = "layout_marginRight", "layout_width"
# a content that is at least as wide as half of the room takes what there is
ROOM = MAX_MARGIN
TOO_WIDE = ROOM // 2
LIMITED = "what is in it is not wider than the view, since it takes the room that there is"


class AcrossTask(Task):
    """A frame with a child: whether it is measured, and the width of the frame for which the child is placed."""

    def __init__(self, node: Node, around: Optional[Task], fills: bool, padding: int):
        super().__init__(node, around)
        self.fills, self.padding = fills, padding
        self.child = node.children[0]
        self.margins = {name: it for name, it in self.child.attributes.items() if name.startswith("layout_margin")}
        self.is_measured, self.rounds = False, 0
        self.width = 0

    @property
    def is_done(self) -> bool:
        """Whether the child has its width."""
        return self.is_measured

    @property
    def comes_first(self) -> bool:
        """Its own size is right once the child has its width."""
        return not self.is_measured

    def is_ready(self) -> bool:
        """The width of the child does not depend on groups around."""
        return True

    def reset(self) -> None:
        """Gives the child all the room."""
        self.is_measured = False
        self.child.attributes[WIDTH] = whole(WRAP)
        for name in ("layout_margin", "layout_marginEnd"):
            self.child.attributes.pop(name, None)
        self.child.attributes[MARGIN] = length_of(-ROOM)

    def advance(self, seen: Seen) -> bool:
        """Takes the next step, and returns whether anything was changed."""
        width = seen.size(self.node)[0]
        if not self.is_measured:
            self.rounds += 1
            self.write(seen.size(self.child)[0])
            self.is_measured = True
            self.width = 0
            return True
        if not self.width:
            self.width = width
            return self.filled(width, seen.size(self.child)[0])
        if width == self.width or self.rounds >= MAX_ROUNDS:
            return False
        self.reset()
        return True

    def write(self, width: int) -> None:
        """Writes the width of the child, with its margins."""
        self.child.attributes.pop(MARGIN)
        self.child.attributes.update(self.margins)
        is_limited = width >= TOO_WIDE
        self.child.attributes[WIDTH] = whole(MATCH) if is_limited else length_of(min(width, MAX_SIZE))
        for node in (self.node, self.child) if is_limited else ():
            if node.record is not None:
                node.record.approximate("", LIMITED, Effect.BOUNDS)

    def filled(self, width: int, child: int) -> bool:
        """Has the child fill a view that is wider."""
        if not self.fills or child >= width - self.padding:
            return False
        self.child.attributes[WIDTH] = length_of(max(width - self.padding, 0))
        return True

"""Children of a horizontal line whose texts are on one baseline: margins at the top bring them there."""
from typing import Dict, List, Optional

from .draft import MAX_MARGIN, Node, length_of
from .placing import MAX_ROUNDS, Seen, Task
from .report import Effect

TOP = "layout_marginTop"
UNKNOWN = "children with a text are not placed on a common baseline"


class BaselineTask(Task):
    """A line, the children that share a baseline, and their own margins at the top in pixels."""

    def __init__(self, node: Node, around: Optional[Task], children: List[Node], margins: List[int]):
        super().__init__(node, around)
        self.children, self.margins = children, margins
        self.tops: Dict[int, int] = {}
        self.rounds = 0

    @property
    def is_done(self) -> bool:
        """Whether the margins are written."""
        return self.rounds > 0

    def reset(self) -> None:
        """Writes the margin of all sides as one of each side, since that would count before one at the top."""
        for child in self.children:
            every = child.attributes.pop("layout_margin", None)
            if every is not None:
                child.attributes.update({"layout_margin" + it: every for it in ("Left", "Top", "Right", "Bottom")})

    def advance(self, seen: Seen) -> bool:
        """Takes the next step, and returns whether anything was changed."""
        found = {number: seen.text_top(it) for number, it in enumerate(self.children)}
        tops = {number: top for number, top in found.items() if top is not None}
        if tops == self.tops or self.rounds >= MAX_ROUNDS:
            return False
        self.tops = tops
        self.rounds += 1
        for number, child in enumerate(self.children):
            if number in tops:
                margin = self.margins[number] + max(tops.values()) - tops[number]
                child.attributes[TOP] = length_of(max(min(margin, MAX_MARGIN), -MAX_MARGIN))
            elif child.record is not None:
                child.record.approximate("", UNKNOWN, Effect.BOUNDS)
        return True

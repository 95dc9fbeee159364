"""Places the children of ConstraintLayouts for one window: the program measures them, anchors place them, and
margins and sizes in pixels say where they are.

Code of our own solves them since 2026-12-01, in place of Debian's kiwisolver 1.4.4, which gave the 1081 views of 300
random chains the same places, within half a pixel. It has floats, and no word for ratios, barriers, margins of views
that are gone and whole pixels.
"""
from typing import Dict, Optional

from . import constraint_axis
from .constraint_axis import Axis, Place, rounded
from .constraints import SIZES, Child, Constraints, natural
from .draft import MATCH, MAX_MARGIN, MAX_SIZE, WRAP, length_of, whole
from .placing import MAX_ROUNDS, Seen, Size, Task
from .report import Effect

NATURAL, ACROSS, DONE = 0, 1, 2
MARGINS = (("layout_marginLeft", "layout_marginRight"), ("layout_marginTop", "layout_marginBottom"))
OLD_MARGINS = ("layout_margin", "layout_marginStart", "layout_marginEnd", "layout_marginLeft", "layout_marginRight",
               "layout_marginTop", "layout_marginBottom", "layout_gravity")


class ConstraintTask(Task):
    """A group that is placed: how far it is, the size for which, the number of rounds, and the sizes of its
    children. It is measured twice, and again if a group around it has changed."""

    def __init__(self, group: Constraints, around: Optional[Task]):
        super().__init__(group.node, around)
        self.group = group
        self.stage, self.rounds = NATURAL, 0
        self.size: Size = (0, 0)
        self.widths: Dict[int, int] = {}
        self.texts: Dict[int, int] = {}

    @property
    def is_done(self) -> bool:
        """Whether all is placed."""
        return self.stage == DONE

    def is_wrapped(self, axis: int) -> bool:
        """Whether the group is as large as its content on an axis."""
        return self.group.node.attributes[SIZES[axis]] == whole(WRAP)

    def reset(self) -> None:
        """Gives all children their own sizes again."""
        self.stage = NATURAL
        for child in self.group.children:
            natural(child)
            for name in OLD_MARGINS:
                child.node.attributes.pop(name, None)

    def advance(self, seen: Seen) -> bool:
        """Takes the next step, and returns whether anything was changed."""
        size = seen.size(self.node)
        sizes = {it.number: seen.size(it.node) for it in self.group.children}
        if self.stage == DONE:
            is_same = all(self.is_wrapped(axis) or size[axis] == self.size[axis] for axis in (0, 1))
            if is_same or self.rounds >= MAX_ROUNDS:
                return False
            self.reset()
            return True
        if self.stage == NATURAL:
            self.size = size
            self.rounds += 1
            put_axis(self, 0, {number: it[0] for number, it in first_sizes(self, sizes).items()})
            self.stage = ACROSS
            return True
        tops = {it.number: seen.text_top(it.node) for it in self.group.children}
        self.texts = {number: top for number, top in tops.items() if top is not None}
        put_axis(self, 1, heights(self, sizes))
        self.stage = DONE
        return True


def first_sizes(task: ConstraintTask, sizes: Dict[int, Size]) -> Dict[int, Size]:
    """The sizes of children, of which one may have its width by its height."""
    found = dict(sizes)
    for child in task.group.children:
        across, down = child.ties
        if child.ratio is not None and across.size == MATCH and down.size != MATCH:
            found[child.number] = (rounded(sizes[child.number][1] * child.ratio), sizes[child.number][1])
            across.size, across.by_content = WRAP, False
    return found


def heights(task: ConstraintTask, sizes: Dict[int, Size]) -> Dict[int, int]:
    """The heights of children once their widths are known, of which one may have its height by its width."""
    found = {number: it[1] for number, it in sizes.items()}
    for child in task.group.children:
        if child.ratio is not None and child.ties[1].size == MATCH:
            found[child.number] = rounded(task.widths[child.number] / child.ratio)
            child.ties[1].size = WRAP
    return found


def put_axis(task: ConstraintTask, axis: int, sizes: Dict[int, int]) -> None:
    """Places the children of a group on an axis."""
    group = task.group
    padding = (group.padding[axis], group.padding[axis + 2])
    made = Axis(axis, task.size[axis], padding, sizes, task.texts if axis == 1 else {})
    if task.is_wrapped(axis):
        made = made._replace(size=constraint_axis.needed(group, made))
    places, stuck = constraint_axis.solved(group, made)
    for child in group.children:
        put_child(child, axis, places[child.number], made, task.is_wrapped(axis))
        if axis == 0:
            task.widths[child.number] = places[child.number][1] - places[child.number][0]
        if child.number in stuck and child.node.record is not None:
            child.node.record.leave_out("", "its constraints lead in a circle", Effect.BOUNDS)


def put_child(child: Child, axis: int, place: Place, made: Axis, is_wrapped: bool) -> None:
    """Writes the place and the size of a child."""
    begin, end = place
    node = child.node
    node.attributes[SIZES[axis]] = length_of(min(max(end - begin, 0), MAX_SIZE))
    node.attributes[MARGINS[axis][0]] = length_of(max(min(begin - made.padding[0], MAX_MARGIN), -MAX_MARGIN))
    rest = made.size - made.padding[1] - end
    if is_wrapped and rest > 0 and end > begin:
        node.attributes[MARGINS[axis][1]] = length_of(min(rest, MAX_MARGIN))

"""Groups whose children are placed by what the program measures: each takes a step after every measuring, until none
changes anything. A group that is in another one is placed after it."""
from typing import Callable, Dict, List, Optional, Tuple

from ..common.failures import NOT_BUILT, Failure
from ..resources.values import Type, Value
from .draft import Node
from .drawables import pixels
from .measurer import Bounds, Measurer
from .report import Effect

# how often a group is placed again, if one around it has changed its size
MAX_ROUNDS = 3
Size = Tuple[int, int]


class Seen:
    """What the program has measured: the bounds of elements, on a screen of some density."""

    def __init__(self, nodes: List[Node], bounds: List[Bounds], density: int):
        self.bounds: Dict[int, Bounds] = dict(zip(map(id, nodes), bounds))
        self.density = density

    def of(self, node: Node) -> Bounds:
        """The bounds of an element in the one around it; None where it has none."""
        return self.bounds.get(id(node))

    def size(self, node: Node) -> Size:
        """Width and height of an element; 0 where it has no bounds."""
        found = self.of(node)
        return (found[2] - found[0], found[3] - found[1]) if found else (0, 0)

    def text_top(self, node: Node) -> Optional[int]:
        """How far below the top of an element its text begins: all texts have one baseline below that. None where it
        has no text."""
        inner = next((it for it in node.children if it.is_added and it.kind == "TextView"), None)
        if inner is not None:
            found = self.of(inner)
            return found[1] if found else None
        if node.kind != "TextView":
            return None
        padding = node.attributes.get("padding") or node.attributes.get("paddingTop")
        return pixels(Value(Type.DIMENSION, padding.word), self.density) if padding else 0


class Task:
    """A group that is placed; `around` is the next one that it is in."""

    def __init__(self, node: Node, around: Optional["Task"]):
        self.node, self.around = node, around

    @property
    def is_done(self) -> bool:
        """Whether all is placed."""
        raise NotImplementedError

    @property
    def comes_first(self) -> bool:
        """Whether all other groups wait for it."""
        return False

    def is_ready(self) -> bool:
        """Whether the groups around are placed."""
        return self.around is None or (self.around.is_done and self.around.is_ready())

    def reset(self) -> None:
        """Prepares the first measuring."""
        raise NotImplementedError

    def advance(self, seen: Seen) -> bool:
        """Takes the next step, and returns whether anything was changed."""
        raise NotImplementedError


# makes the task of a group, in the next one around it
Maker = Callable[[Node, Optional[Task]], Task]


def tasks_in(root: Node) -> List[Task]:
    """The groups of a layout, those around others first."""
    found: List[Task] = []
    left: List[Tuple[Node, Optional[Task]]] = [(root, None)]
    while left:
        node, around = left.pop()
        if node.placed is not None:
            task: Task = node.placed(node, around)
            found.append(task)
            around = task
        left.extend((it, around) for it in reversed(node.children))
    return found


def nodes_in(root: Node) -> List[Node]:
    """The elements in the order in which they begin."""
    found, left = [], [root]
    while left:
        node = left.pop()
        found.append(node)
        left.extend(reversed(node.children))
    return found


def place(root: Node, measurer: Measurer) -> bool:
    """Places all groups of a layout; returns whether there are any."""
    tasks = tasks_in(root)
    for task in tasks:
        task.reset()
    is_changed = bool(tasks)
    while is_changed:
        try:
            seen = Seen(nodes_in(root), measurer.bounds(root), measurer.density)
        except Failure as failure:
            if failure.status != NOT_BUILT:
                raise
            leave(tasks, "children are not placed: there is no program")
            return True
        is_changed = False
        for task in [it for it in tasks if it.comes_first] or tasks:
            if task.is_ready():
                is_changed = task.advance(seen) or is_changed
    for task in tasks:
        if task.node.record is not None:
            task.node.record.solved_for = measurer.window
    return bool(tasks)


def leave(tasks: List[Task], why: str) -> None:
    """Says of groups, and of what is in them, that nothing is placed."""
    for task in tasks:
        for node in (task.node, *task.node.children):
            if node.record is not None:
                node.record.leave_out("", why, Effect.BOUNDS)

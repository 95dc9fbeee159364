"""Actions of several pointers, tick by tick, as WebDriver has them, made events of touch.

The rules of touch know no time. A move that lasts is one event for each 16 ms, as a screen of 60 Hz gives them; a pause
is none. All of a request is read before its first event."""
import math
from dataclasses import dataclass, field
from typing import Any, Callable, Dict, List, Tuple

from ..session.session import Editing
from .errors import Problem, number_in

Point = Tuple[int, int]
# where an element is on the window: the middle of what is seen of it
Middle = Callable[[Any], Point]

MILLISECONDS, MOST_MILLISECONDS = 16, 60000
MOST_TICKS, MOST_POINTERS = 1000, 32
MAX_PLACE = 1048576
VIEWPORT, POINTER = "viewport", "pointer"
PAUSE, MOVE, DOWN, UP = "pause", "pointerMove", "pointerDown", "pointerUp"


@dataclass
class Action:
    """One action of a pointer: its kind, and of a move where it goes to, from where, and in how many events."""

    kind: str
    x: int = 0
    y: int = 0
    origin: Any = VIEWPORT
    steps: int = 1


@dataclass
class Pointers:
    """The pointers of a session: the number of each that is down and the place of each by its id, and those that are
    down, in order."""

    numbers: Dict[str, int] = field(default_factory=dict)
    places: Dict[str, Point] = field(default_factory=dict)
    down: List[str] = field(default_factory=list)


def action_of(record: Any, is_pointer: bool) -> Action:
    """An action of a request."""
    kind = record.get("type") if isinstance(record, dict) else None
    if kind == PAUSE:
        if "duration" in record:
            number_in(record, "duration", 0, MOST_MILLISECONDS)
        return Action(PAUSE)
    if not is_pointer:
        raise Problem("unsupported operation", "keys and wheels can pause alone, and do no %s" % kind)
    if kind in (DOWN, UP):
        return Action(kind)
    if kind != MOVE:
        raise Problem("invalid argument", "a pointer does no '%s'" % kind)
    length = number_in(record, "duration", 0, MOST_MILLISECONDS) if record.get("duration") is not None else 0
    x, y = (number_in(record, key, -MAX_PLACE, MAX_PLACE) for key in ("x", "y"))
    return Action(MOVE, x, y, record.get("origin", VIEWPORT), max(1, math.ceil(length / MILLISECONDS)))


def sources_of(body: Any) -> Dict[str, List[Action]]:
    """The actions of a request by the ids of their pointers."""
    sources = body.get("actions") if isinstance(body, dict) else None
    if not isinstance(sources, list):
        raise Problem("invalid argument", "'actions' has to be a list")
    found: Dict[str, List[Action]] = {}
    for it in sources:
        name, kind = (it.get("id"), it.get("type")) if isinstance(it, dict) else (None, None)
        if not isinstance(name, str) or kind not in ("pointer", "key", "none", "wheel") or name in found:
            raise Problem("invalid argument", "each of 'actions' has an 'id' of its own and a 'type'")
        records = it.get("actions")
        if not isinstance(records, list) or len(records) > MOST_TICKS:
            raise Problem(
                "invalid argument", "the actions of '%s' have to be a list of at most %d" % (name, MOST_TICKS)
            )
        found[name] = [action_of(record, kind == "pointer") for record in records]
        if kind != "pointer":
            found[name] = []
    return found


class Dispatcher:
    """Makes events of actions."""

    def __init__(self, session: Editing, pointers: Pointers, middle: Middle):
        self.session = session
        self.pointers = pointers
        self.middle = middle
        self.way: List[str] = []

    def perform(self, body: Any) -> List[str]:
        """Carries out a request. Returns the way of its events."""
        sources = sources_of(body)
        for tick in range(max(map(len, sources.values()), default=0)):
            self._tick({name: it[tick] for name, it in sources.items() if tick < len(it)})
        return self.way

    def _tick(self, actions: Dict[str, Action]) -> None:
        """One action of each pointer; those that move go on in turns."""
        ends = {name: self._target(name, it) for name, it in actions.items() if it.kind == MOVE}
        begun = {name: self.pointers.places.get(name, (0, 0)) for name in ends}
        for name, it in actions.items():
            if it.kind in (DOWN, UP):
                (self._down if it.kind == DOWN else self._up)(name)
        for step in range(1, max((actions[name].steps for name in ends), default=0) + 1):
            for name, end in ends.items():
                if step <= actions[name].steps:
                    self._move(name, between(begun[name], end, step, actions[name].steps))

    def _target(self, name: str, it: Action) -> Point:
        if it.origin == VIEWPORT:
            left, top = 0, 0
        elif it.origin == POINTER:
            left, top = self.pointers.places.get(name, (0, 0))
        else:
            left, top = self.middle(it.origin)
        x, y = left + it.x, top + it.y
        if max(abs(x), abs(y)) > MAX_PLACE:
            raise Problem("move target out of bounds", "no pointer goes to %d %d" % (x, y))
        return x, y

    def _number(self, name: str) -> int:
        numbers = self.pointers.numbers
        if name not in numbers:
            free = [it for it in range(MOST_POINTERS) if it not in numbers.values()]
            if not free:
                raise Problem("invalid argument", "a session has %d pointers at most" % MOST_POINTERS)
            numbers[name] = free[0]
        return numbers[name]

    def _down(self, name: str) -> None:
        if name not in self.pointers.down:
            self.way += self.session.down(self._number(name), *self.pointers.places.get(name, (0, 0)))
            self.pointers.down.append(name)

    def _move(self, name: str, place: Point) -> None:
        self.pointers.places[name] = place
        if name in self.pointers.down:
            self.way += self.session.move(self._number(name), *place)

    def _up(self, name: str) -> None:
        if name in self.pointers.down:
            self.pointers.down.remove(name)
            self.way += self.session.up(self.pointers.numbers.pop(name))

    def release(self) -> List[str]:
        """Lifts all pointers, the last one first."""
        for name in list(reversed(self.pointers.down)):
            self._up(name)
        self.pointers.places.clear()
        return self.way


def between(begun: Point, end: Point, step: int, steps: int) -> Point:
    """A place on the way from one to another."""
    return (begun[0] + (end[0] - begun[0]) * step // steps, begun[1] + (end[1] - begun[1]) * step // steps)

"""Gestures: pointers that go down on views, move and go up. Each returns the way of its events."""
import contextlib
from typing import Iterator, Optional, Sequence, Tuple

from ..common.failures import Failure
from . import checked
from .errors import LineRefused, OtherView
from .looking import Looking
from .results import Viewed, Way, called

# places of a pointer are from minus to plus this
MAX_PLACE = 1048576

Point = Tuple[int, int]


def numbers(pointer: int, x: int, y: int) -> None:
    """A pointer and its place are numbers."""
    for name, value in (("pointer", pointer), ("x", x), ("y", y)):
        checked.number(name, value)


class Touching(Looking):
    """The gestures of docs/TOUCH.md, whose rules know no time: how long a pointer stays down makes no difference. One
    that is refused midway lifts its pointers."""

    def down(self, pointer: int, x: int, y: int) -> Way:
        """A pointer goes down at a place of the window."""
        numbers(pointer, x, y)
        return Way(self.line("down %d %d %d" % (pointer, x, y)))

    def move(self, pointer: int, x: int, y: int) -> Way:
        """It moves there."""
        numbers(pointer, x, y)
        return Way(self.line("move %d %d %d" % (pointer, x, y)))

    def up(self, pointer: int) -> Way:
        """It goes up where it is."""
        checked.number("pointer", pointer)
        return Way(self.line("up %d" % pointer))

    def cancel(self) -> Way:
        """All pointers are taken away."""
        return Way(self.line("cancel"))

    def tap(self, view: Viewed, pointer: int = 0, check: bool = False) -> Way:
        """A pointer goes down and up in the middle of what is seen of a view. With `check` it is an OtherView where
        another view took it, or none; the pointer is up then too."""
        checked.truth("check", check)
        place = self.middle(view)
        with self._lifting(pointer):
            way = self.down(pointer, *place)
            # in a stack there may be no window where it went down
            if pointer in self._down:
                way += self.up(pointer)
        if check:
            taken_by = self._taker(way, place)
            if taken_by != self._number(view):
                raise OtherView(called(view), taken_by, place)
        return way

    def _taker(self, way: Way, place: Point) -> Optional[str]:
        """The view of this tree that took a pointer."""
        return way.taken_by

    @contextlib.contextmanager
    def held(self, view: Viewed, pointer: int = 0) -> Iterator[Way]:
        """A pointer is down in the middle of what is seen of a view for as long as the block goes on, and then goes up,
        which its way has at the end."""
        place = self.middle(view)
        with self._lifting(pointer):
            way = self.down(pointer, *place)
            yield way
            if pointer in self._down:
                way += self.up(pointer)

    def drag(self, view: Viewed, right: int, down: int, steps: int = 5, pointer: int = 0) -> Way:
        """A pointer goes down in the middle of what is seen of a view, moves by these pixels in equal steps, and goes
        up."""
        for name, value in (("right", right), ("down", down), ("pointer", pointer)):
            checked.number(name, value)
        checked.between("steps", steps, 1, checked.MAX_COUNT)
        x, y = self.middle(view)
        return self.gesture(
            [(x + right * step // steps, y + down * step // steps) for step in range(steps + 1)], first=pointer
        )

    def gesture(self, *paths: Sequence[Point], first: int = 0) -> Way:
        """One pointer for each path of places in the window, numbered from the first: all go down, they move in turns
        from place to place, and go up, the last one first."""
        checked.number("first", first)
        for place in (place for path in paths for place in path):
            checked.place(place)
            x, y = place
            if max(abs(x), abs(y)) > MAX_PLACE:
                raise ValueError("a gesture to %d, %d leads out of the places that a pointer may have" % (x, y))
        if not all(paths):
            raise ValueError("a path has one place at least")
        pointers = range(first, first + len(paths))
        way = Way()
        with self._lifting(*pointers):
            for pointer, path in zip(pointers, paths):
                way += self.down(pointer, *path[0])
            for step in range(1, max(map(len, paths), default=0)):
                for pointer, path in zip(pointers, paths):
                    if step < len(path) and pointer in self._down:
                        way += self.move(pointer, *path[step])
            for pointer in reversed(pointers):
                if pointer in self._down:
                    way += self.up(pointer)
        return way

    @contextlib.contextmanager
    def _lifting(self, *pointers: int) -> Iterator[None]:
        """Where this ends by an exception, pointers that went down in it go up."""
        before = set(self._down)
        try:
            yield
        except BaseException:
            for pointer in pointers:
                if pointer in self._down - before:
                    with contextlib.suppress(LineRefused, Failure, ValueError):
                        self.up(pointer)
            raise

    def middle(self, view: Viewed) -> Point:
        """The middle of what is seen of a view, where gestures on it begin."""
        box = self.seen(view)
        if box is None:
            raise ValueError("nothing of %s is seen in the window" % called(view))
        return (box[0] + box[2]) // 2, (box[1] + box[3]) // 2

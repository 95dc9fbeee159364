"""Stacks of windows: an app with its dialogs, each of which is driven as a session.

    from vindaesk.session import Stack

    with Stack("examples") as stack:
        app = stack.open(0, 0, 0)
        app.script(..)
        dialog = stack.open(1, 60, 48)
        dialog.script(..)
        dialog.tap("@id/yes", check=True)

docs/STACK.md has the lines, and which window a pointer goes to."""
from types import TracebackType
from typing import Dict, List, Optional, Set, Type

from ..common import files
from ..pictures import frames, png
from ..scripts import names
from . import checked, recording
from .channel import Channel
from .errors import LineRefused
from .results import Way
from .session import SECONDS, Editing
from .touching import Point, numbers

DONE = "done "


class InWindow:
    """The lines of one window of a stack."""

    def __init__(self, channel: Channel, number: int):
        self._channel = channel
        self._before = b"in %d " % number

    def single(self, line: bytes) -> List[bytes]:
        return self._channel.single(self._before + line)

    def until_mark(self, line: bytes) -> List[bytes]:
        return self._channel.until_mark(self._before + line)

    def together(self, line: bytes, count: int) -> List[bytes]:
        return self._channel.together(self._before + line, count)


class StackWindow(Editing):
    """A window of a stack, by its number. Places of pointers are those of the window, and each goes to the window that
    is topmost there, which may be another one."""

    def __init__(self, stack: "Stack", number: int, folder: str):
        super().__init__(InWindow(stack.channel, number), folder, stack.ids)
        self._stack = stack
        self._down = stack.pointers
        self.number = number

    def down(self, pointer: int, x: int, y: int) -> Way:
        return self._stack.down(pointer, *self._on_stack(x, y))

    def move(self, pointer: int, x: int, y: int) -> Way:
        return self._stack.move(pointer, *self._on_stack(x, y))

    def up(self, pointer: int) -> Way:
        return self._stack.up(pointer)

    def cancel(self) -> Way:
        return self._stack.cancel()

    def _on_stack(self, x: int, y: int) -> Point:
        left, top = self._stack.corners[self.number]
        return left + x, top + y

    def _taker(self, way: Way, place: Point) -> Optional[str]:
        """The view of this window that took a pointer. The way of an event has its points in each view, but not the
        window: it is this one where no other window has a view of this number at the same place of the stack."""
        name = way.taken_by
        here = self.corner_of(name) if name else None
        on_stack = self._on_stack(*place)
        if name is None or here is None or way.taken_at != (on_stack[0] - here[0], on_stack[1] - here[1]):
            return None
        others = (it for it in self._stack.windows.values() if it is not self)
        if any(it.corner_of(name) == here for it in others):
            raise ValueError(
                "%s of two windows is at the same place, so that it is not known which took the tap" % name
            )
        return name

    def corner_of(self, name: str) -> Optional[Point]:
        """Where the left upper corner of a view is on the stack; None where there is no such view with bounds."""
        try:
            box = self.in_window(name)
        except LineRefused:
            return None
        return self._on_stack(box[0], box[1]) if box else None


class Stack:
    """Up to eight windows in one program. In a `with` statement it ends at its end."""

    def __init__(self, folder: str = ".", ids: Optional[str] = None, seconds: float = SECONDS):
        """Starts the program, as a session does."""
        checked.folder(folder)
        checked.text("ids", ids)
        self._folder = folder
        self.ids = names.beside(folder, ids)
        self.channel = Channel("stack", folder, self.ids, seconds)
        self.windows: Dict[int, StackWindow] = {}
        self.corners: Dict[int, Point] = {}
        self.pointers: Set[int] = set()

    def __enter__(self) -> "Stack":
        return self

    def __exit__(
        self, kind: Optional[Type[BaseException]], error: Optional[BaseException], trace: Optional[TracebackType]
    ) -> None:
        self.end()

    def end(self) -> None:
        """Ends the program; a second call does nothing."""
        self.channel.close()

    def open(self, number: int, x: int, y: int) -> StackWindow:
        """Opens a window, 0 to 7, on top of the others with its corner at a place of the stack, or moves one there."""
        for name, value in (("number", number), ("x", x), ("y", y)):
            checked.number(name, value)
        self._line("at %d %d %d" % (number, x, y))
        self.corners[number] = x, y
        if number not in self.windows:
            self.windows[number] = StackWindow(self, number, self._folder)
        return self.windows[number]

    def on_top(self, number: int) -> None:
        """Puts a window on top of the others."""
        checked.number("number", number)
        self._line("raise %d" % number)

    def close(self, number: int) -> None:
        """Closes a window, with all that it has."""
        checked.number("number", number)
        self._line("close %d" % number)
        del self.windows[number], self.corners[number]

    # touches at places of the stack; each returns the way of its events in the window that gets them

    def down(self, pointer: int, x: int, y: int) -> Way:
        """A pointer goes down. Where there is no window the way is empty."""
        numbers(pointer, x, y)
        way = self._line("sdown %d %d %d" % (pointer, x, y))
        # where a window has got it, the root's answer is last
        if not way[-1:] or not way[-1].startswith(DONE):
            return Way()
        self.pointers.add(pointer)
        return way

    def move(self, pointer: int, x: int, y: int) -> Way:
        """It moves there."""
        numbers(pointer, x, y)
        return self._line("smove %d %d %d" % (pointer, x, y))

    def up(self, pointer: int) -> Way:
        """It goes up where it is."""
        checked.number("pointer", pointer)
        way = self._line("sup %d" % pointer)
        self.pointers.discard(pointer)
        return way

    def cancel(self) -> Way:
        """All pointers are taken away."""
        way = self._line("scancel")
        self.pointers.clear()
        return way

    def picture(self, width: int, height: int) -> png.Picture:
        """What the windows make of this part of the stack, from 0 0 on."""
        for name, value in (("width", width), ("height", height)):
            checked.between(name, value, 1, checked.MAX_SIDE)
        asked = frames.asked((width, height), b"compose")
        rows = [row for line in asked for row in self.channel.until_mark(line)]
        return png.Picture(width, height, [bytes.fromhex(row.decode()) for row in rows])

    def screenshot(self, path: str, width: int, height: int, scale: int = 1) -> None:
        """Writes that as a PNG file."""
        checked.path(path)
        checked.scale(scale)
        files.replace(path, png.written(self.picture(width, height), scale))

    def record(self, path: str) -> None:
        """Writes what was done as a script: `vindaesk stack` answers the same."""
        checked.path(path)
        inflated = {name: digest for it in self.windows.values() for name, digest in it.inflated.items()}
        recording.write(path, bytes(self.channel.journal), self._folder, inflated)

    def _line(self, text: str) -> Way:
        return Way(it.decode() for it in self.channel.until_mark(text.encode()))

"""Drives one program line by line.

    from vindaesk.session import Session

    with Session("examples") as s:
        s.window(100, 50)
        page = s.add("root", "FrameLayout", "match", "match")
        button = s.add(page, "View", 30, 20)
        s.set(button, "id", "@7f050001")
        s.set(button, "answer", "click")
        s.frame()
        print(s.bounds(button), s.tap("@7f050001").clicked)

A view is named as in lines: by its number, as `v3`, or by its id, as `@7f050001`, or as `@id/send`, where the folder's
`ids.txt` has that name; or it is what `find` returned. Lengths and places are in pixels; those of the window count from
its left upper corner. docs/SESSION.md has examples, docs/SCRIPT.md the lines, docs/TOUCH.md the events.

A line that is refused raises `LineRefused` and changes nothing, so that the session can go on. Where the program itself
ends, `Failure` has the sentence and the status. A session is for one thread at a time.
"""
import contextlib
from types import TracebackType
from typing import List, Optional, Type

from ..scripts import names, script
from . import checked, focus, recording, renewal
from .channel import Channel
from .results import Frame, Inflated, Viewed, Word, called, escaped, frame_of, word_of
from .touching import Touching

# how many lines are sent before the answer to the first is read: neither they nor their replies fill a pipe
TOGETHER = 1000
# how long an answer may take, in seconds
SECONDS = 60
# from how many bytes on a shorter script is looked for
LONG = 65536


class Editing(Touching):
    """The lines that make and change views, and frames."""

    def window(self, width: int, height: int) -> None:
        """Opens a new window, each side 1 to 4096 pixels."""
        checked.number("width", width)
        checked.number("height", height)
        self.line("window %d %d" % (width, height))

    def dpi(self, dots: int) -> None:
        """Sets the density for layout files, in dots an inch; it is 160 at the start, where a dp is a pixel."""
        checked.number("dots", dots)
        self.line("dpi %d" % dots)

    def res(self, name: str, kind: str, *values: Word) -> None:
        """Gives a resource a value: `res("@7f060001", "dimen", 12, "dp")`, `"color", "#ff0080ff"` or `"text", TEXT`."""
        checked.given("name", name)
        checked.given("kind", kind)
        words = [escaped(word_of(it)) if kind == "text" else word_of(it) for it in values]
        self.line(" ".join(["res", name, kind, *words]))

    def add(self, parent: Viewed, kind: str, width: Word, height: Word) -> str:
        """Makes a view the last child of its parent, or the root where that is `root`, and returns its name. Width and
        height are pixels, `match` or `wrap`."""
        checked.given("kind", kind)
        return self._one("add %s %s %s %s" % (called(parent), kind, word_of(width), word_of(height)))

    def remove(self, view: Viewed) -> List[str]:
        """Takes a view and all below it away; returns how it learns that a gesture is taken from it."""
        return self.line("remove %s" % called(view))

    def set(self, view: Viewed, what: str, *values: Word) -> List[str]:
        """Carries out the line `WHAT VIEW VALUES`: `set(v, "margins", 1, 2, 3, 4)`, `set(v, "flag", "clip", False)`,
        `set(v, "gravity", "self", "left")`, `set(v, "text", TEXT)`, whose line feeds and backslashes are escaped here.
        """
        checked.given("what", what)
        words = [escaped(word_of(it)) if what == "text" else word_of(it) for it in values]
        return self.line(" ".join([what, called(view), *words]))

    def hook(self, view: Viewed, *edits: str) -> None:
        """Arms a hook: once a frame gives the view another size, the edits are made, each as a line has it."""
        for it in edits:
            checked.given("an edit", it)
        self.line("hook %s %s" % (called(view), " ; ".join(edits)))

    def inflate(self, name: str, into: Optional[Viewed] = None) -> Inflated:
        """Makes the views of a layout file of the folder, as the last child of a view or as the root."""
        checked.given("name", name)
        words = self._one("inflate %s%s" % (name, " into %s" % called(into) if into is not None else "")).split(" ")
        return Inflated(words[1], words[2], int(words[4]))

    def frame(self) -> Frame:
        """Lays the whole tree out in the window, and paints it where that settles."""
        return frame_of(self._carried_out(b"frame", self._carries.single)[0])

    def frames(self, count: int) -> List[Frame]:
        """Carries out a number of frames. They are asked for together, so that none waits for the answer of the one
        before: quicker than as many calls of `frame`."""
        checked.between("count", count, 0, checked.MAX_COUNT)
        found: List[Frame] = []
        while len(found) < count:
            found += [frame_of(it) for it in self._repeated(b"frame", min(TOGETHER, count - len(found)))]
        return found

    def save(self) -> str:
        """Keeps what is saved of the views, and returns its bytes in hexadecimal digits."""
        return self._one("save").split(" ")[1]

    def restore(self, state: Optional[str] = None) -> None:
        """Restores what was kept, or such bytes."""
        checked.text("state", state)
        self.line("restore %s" % state if state else "restore")


class Session(Editing):
    """One program, which is started with it and ends with it. In a `with` statement it ends at its end."""

    def __init__(self, folder: str = ".", ids: Optional[str] = None, seconds: float = SECONDS):
        """Starts the program. Layout files are those of the folder, and names of ids those of its ids.txt, or of a list
        by its path. An answer that takes longer than some seconds is a NoAnswer, and ends the session."""
        checked.folder(folder)
        checked.text("ids", ids)
        known = names.beside(folder, ids)
        self._seconds = seconds
        self._channel = Channel("run", folder, known, seconds)
        super().__init__(self._channel, folder, known)
        # how many programs took the place of another one, and when the next one is to
        self.renewals = 0
        self._due = renewal.reserve(self._channel)
        self._is_kept_before = False

    def __enter__(self) -> "Session":
        return self

    def __exit__(
        self, kind: Optional[Type[BaseException]], error: Optional[BaseException], trace: Optional[TracebackType]
    ) -> None:
        self.close()

    def close(self) -> None:
        """Ends the program; a second call does nothing."""
        self._channel.close()

    def kill(self) -> None:
        """Ends the program at once. Another thread may do so while one waits for an answer, which is a Failure then."""
        self._channel.kill()

    @property
    def is_open(self) -> bool:
        """Whether the program still takes lines."""
        return self._channel.is_open

    @property
    def journal(self) -> str:
        """What was done, as `record` writes it."""
        return self._channel.journal.decode("utf-8", "surrogateescape")

    @property
    def left(self) -> int:
        """How many more bytes of lines the program reads, with two for each line of any number of replies. Before they
        end, a new program takes over, if it can: `renew` says why it cannot."""
        return self._channel.left

    def renew(self) -> str:
        """Has a new program take over, with the same views, bounds and picture. Returns why it cannot, or nothing."""
        why = renewal.why_not(self._world, self._kept, self._down)
        if not why:
            new = Channel("run", self._folder, self.ids, self._seconds)
            why = renewal.renewed(self._channel, new, self._world)
            if not why:
                self._channel = self._carries = new
                self._is_kept_before = self._kept != b""
                self.renewals += 1
        return why

    def _bytes_of(self, text: str) -> bytes:
        line = super()._bytes_of(text)
        if self._is_kept_before:
            words = script.words_of(line)
            # what was kept is not in the program that took over
            line = renewal.RESTORE + self._kept if words == [b"restore"] else line
            self._is_kept_before = words != [b"save"]
        return line

    def _settled(self) -> None:
        super()._settled()
        if self._channel.left < self._due:
            self._channel.why_full = self.renew()
            self._due = (renewal.next_due if self._channel.why_full else renewal.reserve)(self._channel)

    def record(self, path: str) -> None:
        """Writes what was done as a script: `tools/page` shows it, and `vindaesk run` answers the same. A line that was
        refused is a comment. After a new program took over it begins with the lines by which that one did."""
        checked.path(path)
        recording.write(path, bytes(self._channel.journal), self._folder, self.inflated)

    def focus(self, view: Viewed, *sides: str) -> List[Optional[str]]:
        """The view that gets the focus after each of some keys, `left`, `right`, `up` or `down`, from a view on; None
        where no view gets it, so that it stays. Each key is a run of the program over what was done."""
        first = self._number(called(view))
        assert first is not None
        return focus.walk(self._copy(), self._folder, sides, first, self._seconds)

    def _copy(self) -> bytes:
        """A script that leaves what there is now: what was done, or where that is long the lines by which a new program
        would take over."""
        done = bytes(self._channel.journal)
        if len(done) > LONG and not renewal.why_not(self._world, self._kept, self._down):
            with contextlib.closing(Channel("run", self._folder, self.ids, self._seconds)) as new:
                lines = renewal.lines_for(self._channel, self._world)
                if lines is not None and not renewal.take_over(self._channel, new, lines):
                    done = bytes(new.journal)
        return focus.copy_of(done)

"""Carries lines out, and follows what they make of the views, of the window and of the pointers."""
import hashlib
import os
from typing import Callable, Dict, List, Optional, Protocol, Set

from ..common import files
from ..common.failures import Failure
from ..scripts import script
from ..scripts.names import Ids
from ..scripts.script import Window
from ..views import view_tree
from . import checked, saved
from .world import World

# lines that change nothing
QUESTIONS = (b"bounds", b"pixels", b"digest")


# how a line is carried out
Ask = Callable[[bytes], List[bytes]]


class Line(Protocol):
    """What carries lines out: a program, or a window of a stack in one. A refused line raises LineRefused."""

    def single(self, line: bytes) -> List[bytes]:
        """Carries out a line that has one reply."""

    def until_mark(self, line: bytes) -> List[bytes]:
        """Carries out a line with any number of replies."""

    def together(self, line: bytes, count: int) -> List[bytes]:
        """Carries out a line that has one reply a number of times."""


class Carrier:
    """The views after the lines that were carried out. `changes` grows with each line that may have changed one."""

    def __init__(self, carries: Line, folder: str, ids: Ids):
        self._carries = carries
        self._folder = folder
        self.ids = ids
        self._views = view_tree.Tree(folder, ids)
        self.window_size: Optional[Window] = None
        self._down: Set[int] = set()
        self._kept = b""
        self.inflated: Dict[str, bytes] = {}
        self._world = World(self._views)
        self.changes = 0

    @property
    def last_number(self) -> int:
        """The number of the view that was made last; 0 where none was."""
        return self._world.last

    def line(self, text: str) -> List[str]:
        """Carries out any line of docs/SCRIPT.md, and returns its replies."""
        checked.given("a line", text)
        replies = self._carried_out(self._bytes_of(text), self._carries.until_mark)
        return [it.decode() for it in replies]

    def script(self, text: str) -> List[str]:
        """Carries out the lines of a script, and of the files that it includes from the session's folder, and returns
        all replies; the first line that is refused ends it."""
        checked.given("a script", text)
        whole = text.encode("utf-8", "surrogateescape")
        lines = script.Includer().lines(os.path.join(self._folder, "(session)"), whole, [])
        return [reply for line in lines for reply in self.line(line.text.decode("utf-8", "surrogateescape"))]

    def _one(self, text: str) -> str:
        """Carries out a line that has one reply, which needs no mark after it."""
        return self._carried_out(self._bytes_of(text), self._carries.single)[0].decode()

    def _bytes_of(self, text: str) -> bytes:
        """A line for the program, with ids in the place of their names, and without its line feed."""
        if "\n" in text:
            raise ValueError("a line has a line feed in it: %r" % text)
        found = self.ids.expanded(text.encode("utf-8", "surrogateescape"))
        if found.unknown:
            raise Failure("%s: %s" % (found.unknown[0].why, text))
        return found.text

    def _carried_out(self, line: bytes, ask: Ask) -> List[bytes]:
        """The replies of a line that is not refused; what it makes of the views is followed."""
        replies = ask(line)
        self._follow(line, replies[-1] if replies else b"")
        return replies

    def _repeated(self, line: bytes, count: int) -> List[bytes]:
        """The replies of a line that has one, carried out a number of times."""
        replies = self._carries.together(line, count)
        for reply in replies:
            self._follow(line, reply)
        return replies

    def _follow(self, line: bytes, reply: bytes) -> None:
        """What a line made, by its last reply."""
        if reply == b"settled 0":
            self.changes += 1
            self._settled()
            return
        # one that was carried out and begins so is a question, if no spaces are before it
        words = [] if line.startswith(QUESTIONS) else script.words_of(line)
        if not words or words[0] in QUESTIONS:
            return
        self.changes += 1
        word = words[0]
        # before the tree loses a view that the line names by its id
        self._world.before(words, line, reply)
        if word in view_tree.LINES:
            view_tree.LINES[word](self._views, words, line, reply)
        self._note(word, words, line, reply)
        self._world.after(words, line, reply)

    def _settled(self) -> None:
        """A frame settled in which no hook fired."""
        self._world.is_at_rest = not (self._down or self._world.hooks)

    def _note(self, word: bytes, words: List[bytes], line: bytes, reply: bytes) -> None:
        """What a line made of the window, of the pointers, of files and of the saved state."""
        if word == b"window":
            self.window_size = script.window_of(line) or self.window_size
        elif word == b"down":
            self._down.add(int(words[1]))
        elif word == b"up":
            self._down.discard(int(words[1]))
        elif word == b"cancel":
            self._down.clear()
        elif word == b"inflate":
            self.inflated[words[1].decode()] = self._file_digest(words[1].decode())
        elif word == b"save":
            self._kept = reply.split(b" ")[1]
        elif word == b"restore":
            self._restored(words[1] if len(words) > 1 else self._kept)

    def _file_digest(self, name: str) -> bytes:
        """The SHA-256 of a layout file as it is now."""
        return hashlib.sha256(files.read(os.path.join(self._folder, name))).digest()

    def _restored(self, state: bytes) -> None:
        """Gives views the texts of a saved state."""
        for number, text in saved.texts(bytes.fromhex(state.decode())).items():
            for view in list(self._views.named.get(number, {}).values()):
                if view.text is not None:
                    view.text = text
                    self._world.set_text(view.number, text)

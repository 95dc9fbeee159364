"""The program as a library of C that is loaded into this process: a call takes no other process.

    >>> native.library().run(b"window 9 9\\nadd root View 4 3\\nframe\\nbounds\\n")
    (b'v1\\nsettled 0\\nv1 0 0 4 3\\n', 0)

It writes the same bytes as the program, and ends with the same status. include/vindaesk.h says what a call does;
several threads may call at once. A session takes the lines of a script one at a time:

    >>> with native.library().session() as screen:
    ...     screen.line(b"window 9 9"), screen.line(b"add root View 4 3")
    ((b'', 0), (b'v1\n', 0))
"""
import ctypes
import functools
import os
import struct
import threading
from functools import partial
from types import TracebackType
from typing import Callable, List, Mapping, Optional, Sequence, Tuple, Type

from ..common.failures import Failure, NOT_BUILT
from ..provenance import dist
from . import process

# names another library; `no` is for none
VARIABLE, NONE = "VINDAESK_LIBRARY", "no"
# a status that the program does not have: the buffer for the answer is too small
SMALL = 8
# what a call of a session returns that has no memory
NO_MEMORY = 5
# how many bytes the first buffer for an answer has
ROOM = 65536
FUNCTIONS = ("run", "stack", "focus", "dump", "lookup", "open", "line", "answer", "close")

Answer = Tuple[bytes, int]
Files = Mapping[bytes, bytes]


def packed(files: Files) -> bytes:
    """The buffer of some files, by their names."""
    parts = [(struct.pack("<QQ", len(name), len(contents)), name, contents) for name, contents in files.items()]
    return b"".join(part for parts_of_file in parts for part in parts_of_file)


def bytes_parts(*texts: bytes) -> List[object]:
    """Bytes as C takes them: each with how many there are."""
    return [it for text in texts for it in (text, ctypes.c_size_t(len(text)))]


class Room(threading.local):
    """The buffer of each thread for answers, which grows to the largest of them."""

    def __init__(self) -> None:
        self.buffer = ctypes.create_string_buffer(ROOM)

    def answer(self, call: Callable[..., int]) -> Answer:
        """The answer to a call; where it is SMALL, there is room for the next one."""
        size = ctypes.c_size_t()
        status = call(self.buffer, ctypes.c_size_t(len(self.buffer)), ctypes.byref(size))
        if status == SMALL:
            self.buffer = ctypes.create_string_buffer(size.value)
            return b"", SMALL
        return ctypes.string_at(self.buffer, size.value), int(status)


class Library:
    """The library in a file. A file that can't be loaded raises `OSError`, and one without its functions
    `AttributeError`."""

    def __init__(self, path: str):
        self._loaded = ctypes.CDLL(path)
        self._room = Room()
        for name in FUNCTIONS:
            getattr(self._loaded, "vindaesk_" + name).restype = ctypes.c_uint8

    def run(self, script: bytes, files: Optional[Files] = None) -> Answer:
        """What a script writes, and the status."""
        return self._answer(self._loaded.vindaesk_run, bytes_parts(script), files)

    def stack(self, script: bytes, files: Optional[Files] = None) -> Answer:
        """What a script for a stack of windows writes, and the status."""
        return self._answer(self._loaded.vindaesk_stack, bytes_parts(script), files)

    def focus(self, script: bytes, side: bytes, view: bytes, files: Optional[Files] = None) -> Answer:
        """What a script writes and which view gets the focus next, from a view to a side of it, and the status."""
        return self._answer(self._loaded.vindaesk_focus, bytes_parts(script, side, view), files)

    def dump(self, name: bytes, files: Files) -> Answer:
        """The print of a layout file, and the status."""
        return self._answer(self._loaded.vindaesk_dump, bytes_parts(name), files)

    def lookup(self, name: bytes, ids: Sequence[int], files: Files) -> Answer:
        """What resources hold in a table, one line each, and the status. An id is below 2 ** 32."""
        numbers = (ctypes.c_uint32 * max(len(ids), 1))(*ids)
        parts = [*bytes_parts(name), numbers, ctypes.c_size_t(len(ids))]
        return self._answer(self._loaded.vindaesk_lookup, parts, files)

    def session(self, files: Optional[Files] = None) -> "Session":
        """A session whose lines may read these files."""
        return Session(self._loaded, self._room, files or {})

    def _answer(self, function: Callable[..., int], parts: List[object], files: Optional[Files]) -> Answer:
        """The answer to a call."""
        call = partial(function, *parts, *bytes_parts(packed(files or {})))
        answer = self._room.answer(call)
        return self._room.answer(call) if answer[1] == SMALL else answer


class Handle(ctypes.Structure):
    """What C holds of a session: null where it is closed."""

    _fields_ = [("open", ctypes.c_void_p)]


class Session:
    """A script whose lines come one at a time: the answers so far are what `run` writes for the lines so far. Only the
    thread that opened it uses it, and frees what it has by `close`, or by the end of `with`."""

    def __init__(self, loaded: ctypes.CDLL, room: Room, files: Files):
        self._loaded, self._room = loaded, room
        self._thread = threading.get_ident()
        self._handle = Handle()
        if loaded.vindaesk_open(*bytes_parts(packed(files)), ctypes.byref(self._handle)) == NO_MEMORY:
            raise MemoryError("there is no memory for a session")

    def __enter__(self) -> "Session":
        return self

    def __exit__(
        self, kind: Optional[Type[BaseException]], error: Optional[BaseException], trace: Optional[TracebackType]
    ) -> None:
        self.close()

    @property
    def is_open(self) -> bool:
        """Whether it takes lines. It does until it is closed, which running out of memory does too."""
        return self._handle.open is not None

    def line(self, line: bytes) -> Answer:
        """What a line writes, which is given without its line feed, and the status."""
        answer = self._room.answer(partial(self._loaded.vindaesk_line, self._own(), *bytes_parts(line)))
        # a refusal fits into any buffer, so such a line was carried out
        return self._room.answer(partial(self._loaded.vindaesk_answer, self._own())) if answer[1] == SMALL else answer

    def close(self) -> None:
        """Frees what the session has; a second call does nothing."""
        self._loaded.vindaesk_close(self._own())

    def _own(self) -> object:
        """The session as C takes it, in its own thread."""
        if threading.get_ident() != self._thread:
            raise RuntimeError("a session is used by the thread that opened it, and by no other")
        return ctypes.byref(self._handle)


def path() -> Optional[str]:
    """The library that the variable VINDAESK_LIBRARY names, or the one beside the program, if there is one."""
    named = os.environ.get(VARIABLE)
    if named == NONE:
        return None
    if named:
        return os.path.abspath(named)
    beside = os.path.join(os.path.dirname(process.path()), dist.LIBRARY)
    return beside if os.path.exists(beside) else None


@functools.lru_cache(maxsize=None)
def loaded(path: str) -> Library:
    """The library in a file, loaded once."""
    try:
        return Library(path)
    except (AttributeError, OSError) as error:
        raise Failure("the library %s can't be loaded: %s" % (path, error), NOT_BUILT)


def library() -> Library:
    """The library; where there is none, this is a failure."""
    found = path()
    if found is None:
        raise Failure("there is no library beside the program (%s), and %s names none" % (process.path(), VARIABLE), NOT_BUILT)
    return loaded(found)

"""What the program would write, from the library beside it, without another process (native.py).

A call of the library can't be ended from outside. So each is made in a thread of its own, and one that takes longer
than PATIENCE is given up: its thread goes on until this process ends, and from then on all is left to the program,
which a signal ends. To the program is also left what would likely take long, and what the library can't do.
"""
import os
import queue
import re
import stat
import threading
from functools import partial
from typing import Callable, Dict, List, NamedTuple, Optional

from . import calls, native
from .native import Answer, Library

# how long a call may take, in seconds
PATIENCE = 1.0
# the longest script that is carried out here
MAX_SCRIPT = 65536
# the most bytes of a layout file and of a table that are read: one more than either may have
MAX_FILE, MAX_TABLE = 1048576 + 1, 16777216 + 1
# the statuses of calls that reached their end
ENDED = (0, 1)
# how much stack a thread has: include/vindaesk.h says how much a call may use
STACK = 1 << 20
# the names that follow the word of a line that reads a file
NAMED = re.compile(rb"inflate +([A-Za-z0-9_-][A-Za-z0-9_.-]{0,63})")

Call = Callable[[], Answer]


class Asked(NamedTuple):
    """A call that lacks its files, their names, and how much is read of each at most."""

    call: Callable[..., Answer]
    names: List[bytes]
    limit: int


class Worker:
    """A thread that makes one call after the other."""

    def __init__(self) -> None:
        self.given: "queue.SimpleQueue[Call]" = queue.SimpleQueue()
        self.answers: "queue.SimpleQueue[Optional[Answer]]" = queue.SimpleQueue()
        before = threading.stack_size(STACK)
        try:
            threading.Thread(target=self.work, daemon=True).start()
        finally:
            threading.stack_size(before)

    def work(self) -> None:
        """Makes calls; one that has no memory has no answer."""
        while True:
            call = self.given.get()
            try:
                self.answers.put(call())
            except MemoryError:
                self.answers.put(None)


class Workers:
    """The threads that wait for a call, and how many there are in all."""

    def __init__(self) -> None:
        self.idle: List[Worker] = []
        self.count = 0
        # whether a call was given up, or this is the fork of a process with such threads, in which no call may be made
        self.is_closed = False

    def answered(self, call: Call) -> Optional[Answer]:
        """The answer to a call, if there is one in time."""
        worker = self.waiting() or self.another()
        worker.given.put(call)
        try:
            answer = worker.answers.get(timeout=PATIENCE)
        except queue.Empty:
            self.is_closed = True
            return None
        self.idle.append(worker)
        return answer

    def another(self) -> Worker:
        """A new thread."""
        self.count += 1
        return Worker()

    def waiting(self) -> Optional[Worker]:
        """A thread that waits for a call, if there is one."""
        try:
            return self.idle.pop()
        except IndexError:
            return None

    def forked(self) -> None:
        """In the fork of this process its threads are not there."""
        self.is_closed = self.is_closed or self.count > 0
        self.idle = []


WORKERS = Workers()
os.register_at_fork(after_in_child=WORKERS.forked)


def answered(words: List[str], given: bytes, folder: str) -> Optional[Answer]:
    """What the program would write for these words over a script in a folder, and its status: 0 or 1. None where that
    is left to the program."""
    if WORKERS.is_closed or len(given) > MAX_SCRIPT:
        return None
    found = native.path() if calls.has_form(words) else None
    asked = asked_of(native.loaded(found), words, given) if found else None
    files = contents_of(asked.names, folder, asked.limit) if asked else None
    if asked is None or files is None:
        return None
    answer = WORKERS.answered(partial(asked.call, files=files))
    return answer if answer and answer[1] in ENDED else None


def asked_of(library: Library, words: List[str], given: bytes) -> Optional[Asked]:
    """What words that have a form ask the library for, if it has such a call."""
    form, *more = words
    if form == "run":
        return Asked(partial(library.run, given), NAMED.findall(given), MAX_FILE)
    if form == "stack":
        return Asked(partial(library.stack, given), NAMED.findall(given), MAX_FILE)
    if form == "focus":
        return Asked(partial(library.focus, given, *map(str.encode, more)), NAMED.findall(given), MAX_FILE)
    if form == "dump":
        return Asked(partial(library.dump, more[0].encode()), [more[0].encode()], MAX_FILE)
    if form == "lookup":
        ids = [int(it, 16) for it in more[1:]]
        return Asked(partial(library.lookup, more[0].encode(), ids), [more[0].encode()], MAX_TABLE)
    return None


def contents_of(names: List[bytes], folder: str, limit: int = MAX_FILE) -> Optional[Dict[bytes, bytes]]:
    """Those of some files that are there, by their names, each up to a limit; None where one can't be read, or may have
    to be waited for."""
    found = {}
    for name in dict.fromkeys(names):
        path = os.path.join(os.fsencode(folder), name)
        try:
            if not stat.S_ISREG(os.stat(path).st_mode):
                return None
            with open(path, "rb") as file:
                found[name] = file.read(limit)
        except FileNotFoundError:
            continue
        except OSError:
            return None
    return found

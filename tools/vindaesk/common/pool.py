"""Does tasks in several processes, and yields each with what came of it as soon as that is known.

A process that dies takes no other task with it: its own is tried once more, in a new process, and then given up.
"""
import collections
import math
import resource
import time
from multiprocessing import connection
from typing import Any, Callable, Deque, Dict, Generator, Iterator, List, NamedTuple, Optional, Sequence, Tuple

from .messages import say
from .workers import Worker, end

# how often a task is tried whose process dies
TRIES = 2
# how many open files this process needs besides one for each worker
SPARE_FILES = 24


class Lost(NamedTuple):
    """What comes of a task that was given up, and why."""

    why: str


class Busy(NamedTuple):
    """A worker, the place of its task, and the time up to which it may take."""

    worker: Worker
    place: int
    until: float


Act = Callable[[Any], Any]
Ended = Tuple[int, Any]


class Pool:
    """The processes. Each may take some seconds for a task, or `math.inf`."""

    def __init__(self, act: Act, jobs: int, seconds: float):
        self.act = act
        self.seconds = seconds
        files = resource.getrlimit(resource.RLIMIT_NOFILE)[0]
        self.most = min(jobs, max(1, files - SPARE_FILES)) if files != resource.RLIM_INFINITY else jobs
        self.busy: Dict[int, Busy] = {}
        self.idle: List[Worker] = []
        self.deaths: Dict[int, int] = {}

    def results(self, tasks: Sequence[Any]) -> Generator[Ended, None, None]:
        """The place of each task with what came of it."""
        waiting = collections.deque(range(len(tasks)))
        try:
            while waiting or self.busy:
                self.begin(tasks, waiting)
                yield from self.ended(waiting)
        finally:
            end([*self.idle, *(it.worker for it in self.busy.values())])

    def begin(self, tasks: Sequence[Any], waiting: Deque[int]) -> None:
        """Gives what waits to processes that do nothing, or to new ones."""
        while waiting and len(self.busy) < self.most:
            worker = self.idle.pop() if self.idle else self.started()
            if worker is None:
                return
            place = waiting.popleft()
            self.busy[worker.connection.fileno()] = Busy(worker, place, time.monotonic() + self.seconds)
            try:
                worker.connection.send(tasks[place])
            except OSError:
                # it has died, which is seen when its answer is read
                pass

    def started(self) -> Optional[Worker]:
        """A new process. Where the machine has no room for one more, there are those that run."""
        try:
            return Worker(self.act, [*self.busy, *(it.connection.fileno() for it in self.idle)])
        except OSError as error:
            if not self.busy:
                raise
            self.most = len(self.busy)
            say("only %d run at once: %s" % (self.most, error.strerror))
            return None

    def ended(self, waiting: Deque[int]) -> Iterator[Ended]:
        """Waits until something has ended, and yields that."""
        left = min(it.until for it in self.busy.values()) - time.monotonic()
        limit = None if left == math.inf else max(0, left)
        ready = connection.wait([it.worker.connection for it in self.busy.values()], limit)
        for handle in [it.fileno() for it in ready if isinstance(it, connection.Connection)]:
            busy = self.busy.pop(handle)
            try:
                found = busy.worker.connection.recv()
            except (EOFError, OSError):
                yield from self.died(busy, waiting)
                continue
            self.idle.append(busy.worker)
            yield busy.place, found
        for handle in [it for it, busy in self.busy.items() if busy.until < time.monotonic()]:
            busy = self.busy.pop(handle)
            busy.worker.kill()
            yield busy.place, Lost("it takes more than %g seconds in all, and was ended" % self.seconds)

    def died(self, busy: Busy, waiting: Deque[int]) -> Iterator[Ended]:
        """Has the task of a process that died tried once more, or gives it up."""
        status = busy.worker.kill()
        self.deaths[busy.place] = self.deaths.get(busy.place, 0) + 1
        how = "by the signal %d" % -status if status < 0 else "with status %d" % status
        if self.deaths[busy.place] < TRIES:
            waiting.appendleft(busy.place)
        else:
            yield busy.place, Lost("the process that ran it ended %s, %d times" % (how, TRIES))

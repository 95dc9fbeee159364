"""Processes that each do one thing after another, and end with this one.

`concurrent.futures` does not say which task a process had that died, and gives up all others with it.
"""
import contextlib
import ctypes
import multiprocessing
import os
import signal
import sys
import time
from multiprocessing.connection import Connection
from typing import Any, Callable, List, NoReturn, Sequence

PR_SET_PDEATHSIG = 1
# how long a process has to end by itself, in seconds
GRACE = 2.0


class Ended(BaseException):
    """The signal came by which this process has to end."""


def take(number: int, _: object) -> NoReturn:
    """Takes the signal to end."""
    signal.signal(number, signal.SIG_IGN)
    raise Ended


def end_with(parent: int) -> None:
    """Has the kernel end this process once its parent has ended, which may have happened already."""
    signal.signal(signal.SIGTERM, take)
    for number in (signal.SIGINT, signal.SIGHUP):
        signal.signal(number, signal.SIG_IGN)
    ctypes.CDLL(None, use_errno=True).prctl(PR_SET_PDEATHSIG, signal.SIGTERM)
    if os.getppid() != parent:
        raise Ended


def serve(connection: Connection, act: Callable[[Any], Any]) -> None:
    """Does what comes, until nothing more can come."""
    while True:
        try:
            given = connection.recv()
        except (EOFError, OSError):
            return
        found = act(given)
        with contextlib.suppress(OSError):
            connection.send(found)


def live(connection: Connection, act: Callable[[Any], Any], parent: int, others: Sequence[int]) -> NoReturn:
    """The whole life of the new process. What it has started is in its group, and ends with it."""
    try:
        os.setpgid(0, 0)
        end_with(parent)
        for handle in others:
            os.close(handle)
        serve(connection, act)
    except Ended:
        pass
    except BaseException as error:
        with contextlib.suppress(BaseException):
            print("a worker ended: %s: %s" % (type(error).__name__, error), file=sys.stderr, flush=True)
    finally:
        os.killpg(os.getpid(), signal.SIGKILL)
        os._exit(1)


class Worker:
    """A process, seen from the one that has started it."""

    def __init__(self, act: Callable[[Any], Any], others: Sequence[int]):
        self.connection, its = multiprocessing.Pipe()
        parent = os.getpid()
        sys.stdout.flush()
        try:
            self.pid = os.fork()
        except OSError:
            self.connection.close()
            its.close()
            raise
        if self.pid == 0:
            live(its, act, parent, [*others, self.connection.fileno()])
        its.close()
        with contextlib.suppress(OSError):
            # whichever of both comes first
            os.setpgid(self.pid, self.pid)

    def kill(self) -> int:
        """Ends the process with all that it has started. Returns how it ended: a signal is below 0."""
        with contextlib.suppress(OSError):
            os.killpg(self.pid, signal.SIGKILL)
        self.connection.close()
        _, status = os.waitpid(self.pid, 0)
        return -os.WTERMSIG(status) if os.WIFSIGNALED(status) else os.WEXITSTATUS(status)


def has_ended(worker: Worker) -> bool:
    """Whether a process has ended, which is still to be waited for."""
    return os.waitid(os.P_PID, worker.pid, os.WEXITED | os.WNOHANG | os.WNOWAIT) is not None


def end(workers: List[Worker]) -> None:
    """Ends processes: first by a signal that they take, so that they remove what is half made."""
    for worker in workers:
        with contextlib.suppress(OSError):
            os.kill(worker.pid, signal.SIGTERM)
    until = time.monotonic() + GRACE
    while time.monotonic() < until and not all(map(has_ended, workers)):
        time.sleep(0.005)
    for worker in workers:
        worker.kill()

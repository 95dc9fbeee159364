"""Runs the program as if it had been called itself: it has the caller's streams, it gets the signals that come here,
and this process ends as it did."""
from __future__ import annotations

import os

from ..common.failures import Failure, NOT_BUILT

# The module `signal` is this one with enumerations, whose import takes longer than a short run.
signal = __import__("_signal")

PASSED_ON = (
    signal.SIGHUP, signal.SIGINT, signal.SIGQUIT, signal.SIGTERM, signal.SIGUSR1, signal.SIGUSR2, signal.SIGALRM
)
# Python ignores these, and the program should not
IGNORED = (signal.SIGPIPE, signal.SIGXFSZ)


class Foreground:
    """A command that runs, and the last signal that came for it."""

    def __init__(self) -> None:
        self.process = 0
        self.caught = 0

    def take(self, number: int, _: object) -> None:
        """Passes a signal on, now or once the command has started."""
        self.caught = number
        if self.process:
            try:
                os.kill(self.process, number)
            except ProcessLookupError:
                return

    def run(self, command: list[str]) -> int:
        """Runs the command, and returns its status, or the number of the signal that ended it, below 0."""
        # a signal that was ignored when this process began stays so, for the command too
        taken = [it for it in PASSED_ON if signal.getsignal(it) != signal.SIG_IGN]
        before = {it: signal.signal(it, self.take) for it in taken}
        try:
            self.process = os.posix_spawn(command[0], command, os.environ, setsigdef=IGNORED)
            if self.caught:
                self.take(self.caught, None)
            _, status = os.waitpid(self.process, 0)
        finally:
            self.process = 0
            for it, action in before.items():
                signal.signal(it, action)
        return -os.WTERMSIG(status) if os.WIFSIGNALED(status) else os.WEXITSTATUS(status)


def run(command: list[str]) -> int:
    """Runs a command, whose first word is a path. Returns its status, or below 0 the signal that ended it."""
    try:
        return Foreground().run(command)
    except OSError as error:
        why = "%s cannot be run: %s; it needs Linux on x86-64 with the GNU C library" % (command[0], error.strerror)
        raise Failure(why, NOT_BUILT)


def end_by(number: int) -> None:
    """Ends this process by a signal, without a dump of its memory."""
    import resource

    resource.setrlimit(resource.RLIMIT_CORE, (0, resource.getrlimit(resource.RLIMIT_CORE)[1]))
    if number != signal.SIGKILL:
        signal.signal(number, signal.SIG_DFL)
    os.kill(os.getpid(), number)
    # where the signal is held back
    os._exit(128 + number)

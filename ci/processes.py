"""Runs a command, and ends all that it has started where this process is to end: what it has started is known by a
variable, which processes pass on to those that they start."""
import contextlib
import os
import signal
import subprocess
import sys
import time
from typing import Iterator, NoReturn, Sequence

MARK = "CI_CHECKS_RUN"
ENDING = (signal.SIGINT, signal.SIGTERM, signal.SIGHUP)
# for what processes do at their own end
GRACE_SECONDS = 3


class Ended(BaseException):
    """This process is to end, by a signal."""

    def __init__(self, number: int):
        super().__init__(number)
        self.number = number


def take(number: int, _: object) -> NoReturn:
    """Takes a signal."""
    raise Ended(number)


def marked(mark: bytes) -> Iterator[int]:
    """The processes that have the mark, except this one."""
    for name in os.listdir("/proc"):
        if name.isdigit() and int(name) != os.getpid():
            with contextlib.suppress(OSError), open("/proc/%s/environ" % name, "rb") as file:
                if mark in file.read().split(b"\0"):
                    yield int(name)


def kill(mark: bytes, number: int) -> bool:
    """Sends a signal to all processes that have the mark; whether there are any."""
    pids = list(marked(mark))
    for pid in pids:
        with contextlib.suppress(OSError):
            os.kill(pid, number)
    return bool(pids)


def end(mark: bytes) -> None:
    """Ends all processes that have the mark: by an interrupt, so that they remove their files, and then in any case."""
    kill(mark, signal.SIGINT)
    until = time.monotonic() + GRACE_SECONDS
    while any(marked(mark)) and time.monotonic() < until:
        time.sleep(0.05)
    while kill(mark, signal.SIGKILL):
        time.sleep(0.05)


def status_of(command: Sequence[str]) -> int:
    """The status of a command; where a signal ends this process meanwhile, it ends all first."""
    # a shell has commands in the background ignore interrupts, `nohup` has them ignore hang-ups, and what they start
    # too
    for number in ENDING:
        signal.signal(number, take)
    mark = "%d-%d" % (os.getpid(), time.time_ns())
    # in a session of its own it gets an interrupt of the terminal once, from this process
    started = subprocess.Popen(command, env={**os.environ, MARK: mark}, start_new_session=True)
    try:
        return started.wait()
    except Ended as ended:
        for number in ENDING:
            signal.signal(number, signal.SIG_IGN)
        end(("%s=%s" % (MARK, mark)).encode())
        started.wait()
        print("ci/checks: ended by the signal %s" % signal.Signals(ended.number).name, file=sys.stderr)
        return 128 + ended.number

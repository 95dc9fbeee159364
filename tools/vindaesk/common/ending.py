"""How a tool ends: its status, and one sentence where something went wrong."""
import contextlib
import os
import signal
import sys
from typing import Callable, Iterator, NoReturn, Optional, Sequence

from .failures import INTERRUPTED, NO_MEMORY, NOT_RUN, NOT_WRITTEN, Ended, Failure
from .messages import say

# takes the words of a call, or None for those of the process, and returns the status
Main = Callable[[Optional[Sequence[str]]], int]


def open_standard_streams() -> None:
    """Opens /dev/null in the place of each standard stream that is closed, so that no file that a tool opens takes its
    number. What is written to a standard output that was closed is an error all the same."""
    for number, name, mode in ((0, "stdin", "r"), (1, "stdout", "w"), (2, "stderr", "w")):
        if getattr(sys, name) is not None:
            continue
        # reading from an output, or writing to an input, fails, as it does on what is closed
        opened = os.open(os.devnull, os.O_WRONLY if number == 0 else os.O_RDONLY if number == 1 else os.O_WRONLY)
        if opened != number:
            os.dup2(opened, number)
            os.close(opened)
        setattr(sys, name, os.fdopen(number, mode, closefd=False))


def drop_output() -> None:
    """Standard output is closed: what is still to be written there is dropped."""
    os.dup2(os.open(os.devnull, os.O_WRONLY), sys.stdout.fileno())


def take(number: int, _: object) -> NoReturn:
    """Takes a signal."""
    raise Ended(number)


@contextlib.contextmanager
def ended_by_signals() -> Iterator[None]:
    """Has the signals by which others end a process end a tool as an interrupt does: what it runs ends too, and no file
    is left half written."""
    before = {it: signal.getsignal(it) for it in (signal.SIGTERM, signal.SIGHUP)}
    taken = [it for it in before if before[it] is signal.SIG_DFL]
    for it in taken:
        signal.signal(it, take)
    try:
        yield
    finally:
        for it in taken:
            signal.signal(it, signal.SIG_DFL)


def status_of(main: Main) -> int:
    """The status of a tool; what goes wrong is one sentence."""
    try:
        with ended_by_signals():
            status = main(None)
        sys.stdout.flush()
        return status
    except Failure as failure:
        say(str(failure))
        return failure.status
    except BrokenPipeError:
        say("standard output was closed before all was written")
        drop_output()
        return NOT_WRITTEN
    except KeyboardInterrupt:
        say("interrupted")
        return INTERRUPTED
    except Ended as it:
        say("ended by the signal %s" % signal.Signals(it.number).name)
        return 128 + it.number
    except MemoryError:
        say("out of memory")
        return NO_MEMORY
    except OSError as error:
        # files have names, standard output has none
        say("%s: %s" % (error.filename or "standard output", error.strerror or error))
        if error.filename:
            return NOT_RUN
        drop_output()
        return NOT_WRITTEN


def call(main: Main) -> NoReturn:
    """Ends the process with the status of a tool."""
    open_standard_streams()
    sys.exit(status_of(main))

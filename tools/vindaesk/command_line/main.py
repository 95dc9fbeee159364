"""The command `vindaesk`. A call of the program is passed on to it at once: what other words need is loaded only for
them, since a run of the program takes less time than that."""
from __future__ import annotations

import os
import sys

from ..building import once
from ..common.failures import Failure, NOT_BUILT, NOT_RUN
from ..common.messages import say
from ..program import calls, foreground, statuses
from ..provenance import choice

TYPE_CHECKING = False
if TYPE_CHECKING:
    from typing import NoReturn

NAME = "vindaesk"
OPTIONS = {"-h": "help", "--help": "help", "--version": "version"}
# how much of a layout file is looked at, and with what texts begin
HEAD = 200
BYTE_ORDER_MARKS = (b"\xef\xbb\xbf", b"\xff\xfe", b"\xfe\xff")


def run() -> NoReturn:
    """Carries out the words of the process, and ends it."""
    given = sys.argv[1:]
    sys.argv[0] = NAME
    if sys.stderr is None:
        sys.stderr = open(os.devnull, "w")
    try:
        status = status_of(given)
    except Failure as failure:
        say(str(failure))
        status = failure.status
    except OSError as error:
        say("%s: %s" % (error.filename or "the sources", error.strerror))
        status = NOT_BUILT
    except KeyboardInterrupt:
        status = -foreground.signal.SIGINT
    leave(status)


def leave(status: int) -> NoReturn:
    """Ends the process at once: what Python does at its end takes some milliseconds, and nothing is left to be
    written."""
    try:
        sys.stderr.flush()
    except OSError:
        pass
    if status < 0:
        foreground.end_by(-status)
    os._exit(status)


def status_of(words: list[str]) -> int:
    """Carries out words. Returns the status, or the number of the signal that ended the program, below 0."""
    if words[:1] == ["--prove"]:
        if not choice.is_checkout():
            raise Failure("there are no sources here: --prove is for a checkout", NOT_RUN)
        os.environ[choice.PROVE] = "1"
        os.environ.pop(choice.NAMED, None)
        words = words[1:]
    if calls.has_form(words) and not is_question(words):
        return passed_on(words)
    return other(words)


def is_question(words: list[str]) -> bool:
    """Whether it is asked what a call takes; this could be the name of a file too."""
    return len(words) == 2 and words[1] in ("-h", "--help")


def passed_on(words: list[str]) -> int:
    """Runs the program, and says what there is to say of how it ended."""
    program = once.program()
    if words[0] in calls.READING and os.isatty(0):
        say("reading the script from the terminal; end it with Ctrl-D on a line of its own")
    status = foreground.run([program, *words])
    if statuses.explained(status):
        say(statuses.explained(status))
    if status == 1 and words[0] == "dump" and is_text(words[1]):
        say("%s is XML as text, and layout files are compiled: vindaesk axml makes the form that dump and inflate read"
            % words[1])
    return status


def is_text(path: str) -> bool:
    """Whether a file is XML in the form of text, in any encoding."""
    try:
        with open(path, "rb") as file:
            head = file.read(HEAD)
    except OSError:
        return False
    mark = next((it for it in BYTE_ORDER_MARKS if head.startswith(it)), b"")
    return head[len(mark) :].replace(b"\0", b"").lstrip().startswith(b"<")


def other(words: list[str]) -> NoReturn:
    """Carries out what is no call of the program."""
    if not words:
        raise Failure("what should be done? See vindaesk --help", NOT_RUN)
    if words[0] in calls.FORMS and not is_question(words):
        raise wrong_call(words)
    if words[0] in OPTIONS and len(words) > 1:
        raise Failure("there is no such call: %s; see vindaesk --help" % " ".join(words), NOT_RUN)
    carry_out(["help", words[0]] if words[0] in calls.FORMS else [OPTIONS.get(words[0], words[0]), *words[1:]])


def carry_out(words: list[str]) -> NoReturn:
    """Carries out a command of this package."""
    from ..common import ending
    from . import commands, help as helping

    found = commands.named(words[0])
    if found is None or found.main is None:
        raise helping.unknown(words[0])
    if found.kind is commands.Kind.TOOL and choice.proves():
        once.program()
    sys.argv = ["%s %s" % (NAME, words[0]), *words[1:]]
    ending.call(found.main)


def wrong_call(words: list[str]) -> Failure:
    """That a call of the program has no form that it takes."""
    path = words[1] if len(words) == 2 else ""
    if words[0] == "dump" and "/" in path:
        why = "dump takes the name of a file of the current folder: cd %s first" % (os.path.dirname(path) or "/")
    else:
        why = "there is no such call: %s" % " ".join(words)
    return Failure("%s; see vindaesk help %s" % (why, words[0]), NOT_RUN)

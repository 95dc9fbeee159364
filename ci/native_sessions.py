"""Sessions of the library of C (native_sessions.c): the answers to the lines of each worked script, one after another,
are the bytes of the program, with its status, from C and from Python; each status; each request for memory refused in
turn, after which all is freed; and two threads with a session each.

The library is the one beside the program, or the one that the variable VINDAESK_LIBRARY names.
"""
import os
import re
import subprocess
import sys
import tempfile
from functools import partial
from typing import Iterable, List

sys.dont_write_bytecode = True

import native
import stored
from running import PROGRAM, TOP, Checks, difference, run
from vindaesk.common import files
from vindaesk.program import in_process
from vindaesk.program.native import VARIABLE, Answer

SOURCE = os.path.join(os.path.dirname(os.path.abspath(__file__)), "native_sessions.c")
WRAPPED = "-Wl,--wrap=malloc,--wrap=realloc,--wrap=free"
TURNS = 100


def compiled(place: str) -> str:
    """The program of native_sessions.c."""
    return native.compiled(place, "native_sessions", [SOURCE, native.archive(), WRAPPED, "-pthread"])


def with_files(folder: str) -> List[str]:
    """What scripts of a folder may read."""
    return native.matching("*.xml", folder)


def same_bytes() -> str:
    """Why the answers to the lines of a worked script are not what the program writes, or nothing."""
    count = 0
    with tempfile.TemporaryDirectory() as place:
        program = compiled(place)
        for words, script, folder in native.worked():
            if words == ["run"]:
                path = os.path.join(place, "script")
                files.replace(path, script)
                answers = run([program, "lines", path, *with_files(folder)], b"", folder)
                why = difference(*run([PROGRAM, "run"], script, folder), *answers)
                if why:
                    return "%r: %s" % (script[:60], why)
                count += 1
    return "" if count > 50 else "there are only %d worked scripts" % count


def by_lines(script: bytes, folder: str) -> Answer:
    """The answers that a session of Python gives to the lines of a script; the status is 1 where one was refused."""
    found = in_process.contents_of(in_process.NAMED.findall(script), folder)
    assert found is not None
    with native.loaded().session(found) as session:
        answers = [session.line(line) for line in script.split(b"\n")]
    return b"".join(text for text, _ in answers), max(status for _, status in answers)


def same_in_python(calls: Iterable[native.Call]) -> str:
    """Why a session of Python gives other bytes or another status than the program for a script, or nothing."""
    count = 0
    for words, script, folder in calls:
        if words == ["run"]:
            # in a session each line has its line feed
            ended = run([PROGRAM, *words], script + b"\n", folder)
            why = difference(*ended, *by_lines(script, folder)) if ended[1] in in_process.ENDED else ""
            if why:
                return "%r: %s" % (script[:60], why)
            count += 1
    return "" if count > 50 else "there are only %d scripts" % count


def example() -> str:
    """The example in Python, which gets a script at its input."""
    script = b"window 360 640\ninflate page.xml\nframe\nbounds\n"
    source, page = (os.path.join(native.EXAMPLES, *it) for it in (("native", "line_by_line.py"), ("page.xml",)))
    variables = {**os.environ, "PYTHONPATH": os.path.join(TOP, "tools"), VARIABLE: native.shared()}
    ended = subprocess.run([sys.executable, source, page], input=script, stdout=subprocess.PIPE, env=variables)
    return difference(*run([PROGRAM, "run"], script, native.EXAMPLES), ended.stdout, ended.returncode)


def calls(words: List[str], wanted: str = r"^$") -> str:
    """What native_sessions.c prints for these words has a form."""
    with tempfile.TemporaryDirectory() as place:
        ended = subprocess.run([compiled(place), *words], stdout=subprocess.PIPE, stderr=subprocess.STDOUT)
    said = ended.stdout.decode("utf-8", "replace")
    if ended.returncode or not re.search(wanted, said):
        return "%s: status %d: %s" % (words[0], ended.returncode, said[-2000:])
    return ""


def checks() -> Checks:
    given = [native.FROM_A_FILE, *with_files(native.EXAMPLES)]
    yield "native/sessions give the bytes of the program", same_bytes
    yield "native/the example of a session", example
    yield "native/sessions of Python", partial(same_in_python, native.worked())
    if stored.places():
        yield "native/sessions of Python over stored cases", partial(same_in_python, native.stored_calls())
    yield "native/each status of a session", partial(calls, ["states"])
    needed = r"^\d+ requests, [1-9]\d* of them needed"
    yield "native/each request for memory of a session refused", partial(calls, ["refuse", *given], needed)
    yield "native/two sessions at once", partial(calls, ["threads", str(TURNS), *given])

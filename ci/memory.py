"""The program under a limit of memory: a run ends by a status of its own and never by a signal, and what it has written
is a prefix of what it writes without a limit. Of the stack an empty script needs up to 32 KiB, and any other up to
128 KiB, with what the system puts there.

Each script, and a layout file that is printed, is run under limits of the address space and of data, from the least
under which an empty script is run up to one that is no limit, and under limits of the stack from 128 KiB on; the
scripts that need most of the stack are also run with a question and in a window of a stack. The sweep takes some
minutes, so it is run where it is asked for by its name: `ci/checks memory`.
"""
import os
import resource
import subprocess
import tempfile
from functools import partial
from typing import Dict, List, Optional, Sequence, Tuple

from running import PROGRAM, SECONDS, TOP, Checks, run

PAGE = 4096
MAX_STEPS = 192
LIMITS = {
    "address space": (resource.RLIMIT_AS, 16 * PAGE, 1 << 29),
    "data": (resource.RLIMIT_DATA, 8 * PAGE, 1 << 29),
    "stack": (resource.RLIMIT_STACK, PAGE, 8 << 20),
}
# a stack that is smaller may end a run by a signal: functions that call themselves go as deep as the tree
LEAST = {"stack": 128 << 10}
EMPTY_STACK = 32 << 10
# the system begins the stack at a place of its own choice, so one start shows little
STARTS = 100
OUT_OF_MEMORY, WRITE_FAILED = 5, 4
DEPTH = 32
# the variables of a run
NOTHING: Dict[str, str] = {}


def contents(name: str) -> bytes:
    with open(os.path.join(TOP, "examples", name), "rb") as file:
        return file.read()


def lines(*parts: str) -> bytes:
    return "".join(part + "\n" for part in parts).encode()


def growing() -> bytes:
    """Many views with texts, ids and rules."""
    made = ["window 200 400", "add root RelativeLayout match match"]
    for view in range(2, 200):
        made += ["add v1 TextView wrap wrap", "id v%d @%x" % (view, view), "text v%d %s" % (view, "text " * 20)]
        made += ["rule v%d below @%x" % (view, view - 1)] if view > 2 else []
    return lines(*made, "frame", "bounds v199", "digest")


def touching() -> bytes:
    """Hooks, a gesture, and views that are scrolled, saved and restored."""
    made = ["window 100 100", "add root ScrollView match match", "id v1 @1", "add v1 LinearLayout match wrap"]
    for view in range(3, 203):
        made += ["add v2 View match 40", "bg v%d #ff%06x" % (view, view * 4099 % (1 << 24))]
    made += ["hook v%d size v%d match 41" % (view, view + 1) for view in range(3, 27)]
    # each frame fires some of the hooks, until it settles
    made += ["frame"] * 13 + ["down 0 5 5", "move 0 5 1", "up 0", "scroll v1 900", "save", "scroll v1 0", "restore"]
    return lines(*made, "frame", "bounds v3", "digest", "remove v2", "restore 01")


def inflating() -> bytes:
    """Resources, and a file that is read several times."""
    made = ["window 300 300", "res @7f050001 dimen 16 dp"]
    made += ["res @%x text %s" % (number, "word " * 30) for number in range(1, 300)]
    made += ["add root FrameLayout match match"] + ["inflate a.xml into v1"] * 100
    return lines(*made, "frame", "digest")


def pictures() -> bytes:
    """Windows of many sizes, with their pixels."""
    made = ["window 64 64", "add root FrameLayout match match", "bg v1 #ff336699", "frame"]
    for size in range(64, 512, 64):
        made += ["window %d %d" % (size, size), "frame", "digest", "pixels 0 0 4 4"]
    return lines(*made)


def deep(classes: Sequence[str]) -> bytes:
    """A tree as deep as may be, of these classes in turn, with a hook, a gesture, a saved state and a removal."""
    made = ["window 400 400", "add root %s match match" % classes[0], "id v1 @1"]
    for view in range(2, DEPTH):
        made += ["add v%d %s match wrap" % (view - 1, classes[(view - 1) % len(classes)]), "id v%d @%x" % (view, view)]
    leaf = "v%d" % DEPTH
    made += ["add v%d TextView wrap wrap" % (DEPTH - 1), "id %s @%x" % (leaf, DEPTH), "text %s some words" % leaf]
    made += ["answer %s yes" % leaf, "hook %s size %s match 41 ; size v2 match 300" % (leaf, leaf), "frame", "frame"]
    made += ["frame", "down 0 5 5", "move 0 5 50", "down 1 7 7", "move 0 5 90", "up 0", "cancel", "save", "restore"]
    return lines(*made, "visible v3 gone", "frame", "visible v3 visible", "frame", "digest", "remove v2", "frame")


def restoring() -> bytes:
    """A saved state of many views, for which `restore` takes the most of the stack."""
    made = ["window 99 99", "add root FrameLayout match match"]
    for view in range(2, 1026):
        made += ["add v1 ScrollView match match", "id v%d @%x" % (view, view)]
    return lines(*made, "frame", "save", "restore", "frame", "digest")


def in_a_window(script: bytes) -> bytes:
    """The same lines, each for one window of a stack."""
    return b"at 0 0 0\n" + b"".join(b"in 0 " + line for line in script.splitlines(True))


SCRIPTS = {
    "growing": growing(),
    "touching": touching(),
    "inflating": inflating(),
    "pictures": pictures(),
    "empty": b"",
    "refused": b"ad root\n" * 50 + b"x" * 5000 + b"\n",
    "deep": deep(["LinearLayout", "FrameLayout", "ScrollView", "RelativeLayout"]),
    "deep relative": deep(["RelativeLayout"]),
    "restoring": restoring(),
}


# how many lines of a script are meant to be refused
REFUSED = {"touching": 1, "refused": 51}


def refused(name: str, script: bytes) -> str:
    """Whether other lines are refused than those that are meant."""
    with tempfile.TemporaryDirectory() as folder:
        with open(os.path.join(folder, "a.xml"), "wb") as file:
            file.write(contents("a.xml"))
        written = run([PROGRAM, "run"], script, folder)[0].split(b"\n")
    found = [line.decode() for line in written if b": refused " in line]
    return "" if len(found) == REFUSED.get(name, 0) else "refused: %s" % found[:9]


def limited(kind: int, limit: int) -> None:
    resource.setrlimit(kind, (limit, resource.getrlimit(kind)[1]))


def run_under(kind: int, limit: int, words: List[str], given: bytes, folder: str) -> Tuple[bytes, Optional[int]]:
    """What is written under a limit, and the status; a run that the system does not start has none."""
    try:
        ended = subprocess.run(
            [PROGRAM, *words], input=given, stdout=subprocess.PIPE, stderr=subprocess.DEVNULL, cwd=folder,
            timeout=SECONDS, preexec_fn=partial(limited, kind, limit), env=NOTHING
        )
    except (OSError, subprocess.SubprocessError):
        return b"", None
    return ended.stdout, ended.returncode


def starts(kind: int, limit: int, folder: str) -> bool:
    return run_under(kind, limit, ["run"], b"", folder) == (b"", 0)


def starts_in_little() -> str:
    """Whether an empty script is run each time in as much stack as it may need."""
    with tempfile.TemporaryDirectory() as folder:
        failed = sum(not starts(resource.RLIMIT_STACK, EMPTY_STACK, folder) for _ in range(STARTS))
    return "%d of %d starts failed" % (failed, STARTS) if failed else ""


def least_start(kind: int, step: int, most: int, folder: str) -> int:
    """The least limit, a multiple of the step, under which an empty script is run; found by halving."""
    low, high = 0, most // step
    while low + 1 < high:
        middle = (low + high) // 2
        if starts(kind, middle * step, folder):
            high = middle
        else:
            low = middle
    return high * step


def is_prefix(written: bytes, whole: bytes, status: int) -> bool:
    """Whether a run that stopped has written whole lines that it writes without a limit; a write that fails may end
    in a line."""
    is_whole = status == WRITE_FAILED or written[-1:] in (b"", b"\n")
    return whole.startswith(written) and is_whole


def swept(words: List[str], given: bytes, folder: str, kind_name: str) -> str:
    """Why a run under some limit is wrong, or nothing."""
    kind, step, most = LIMITS[kind_name]
    whole, whole_status = run_under(kind, most, words, given, folder)
    if whole_status not in (0, 1):
        return "without a limit the status is %s" % whole_status
    limit, count = max(least_start(kind, step, most, folder), LEAST.get(kind_name, 0)), 0
    while limit < most:
        written, status = run_under(kind, limit, words, given, folder)
        if (written, status) == (whole, whole_status):
            count += 1
            if count == 8:
                return ""
        elif status not in (OUT_OF_MEMORY, WRITE_FAILED):
            return "under a limit of %d bytes the status is %s" % (limit, status)
        elif not is_prefix(written, whole, status):
            return "under a limit of %d bytes what is written is no prefix" % limit
        limit += step * (1 + limit // (step * MAX_STEPS))
    return ""


def sweep(words: List[str], given: bytes, kind_name: str) -> str:
    with tempfile.TemporaryDirectory() as folder:
        with open(os.path.join(folder, "a.xml"), "wb") as file:
            file.write(contents("a.xml"))
        return swept(words, given, folder, kind_name)


def checks() -> Checks:
    yield "memory/start", starts_in_little
    for name, script in SCRIPTS.items():
        yield "memory/lines/%s" % name, partial(refused, name, script)
    for kind_name in LIMITS:
        for name, script in SCRIPTS.items():
            yield "memory/%s/%s" % (kind_name, name), partial(sweep, ["run"], script, kind_name)
        yield "memory/%s/dump" % kind_name, partial(sweep, ["dump", "a.xml"], b"", kind_name)
    for name in ("deep", "restoring"):
        yield "memory/stack/focus/%s" % name, partial(sweep, ["focus", "left", "v1"], SCRIPTS[name], "stack")
        yield "memory/stack/windows/%s" % name, partial(sweep, ["stack"], in_a_window(SCRIPTS[name]), "stack")

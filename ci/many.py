"""Tries calls over many scripts: which are found, where outcomes go, and that one that fails stops no other."""
import os
import signal
import subprocess
import time
from typing import List

from running import SECONDS, Checks, named
from tools import RED, Place, first, place, unlike
from vindaesk.pictures import png

BLUE = RED.replace("ffff0000", "ff0000ff")
REFUSED = RED + "ad root\n"


def put_all(it: Place) -> None:
    """Scripts of every kind in a folder: two that are right, one with a refused line, and two that fail."""
    for name in ("s/in", "s/other"):
        os.makedirs(os.path.join(it.folder, name))
    for name, text in {"s/a.script": RED, "s/in/b.script": BLUE, "s/in/c.script": REFUSED, "s/d.script": "window 9 9\n",
                       "s/other/a.script": RED, "s/a.stack": "at 0 0 0\n", "s/notes.txt": "x"}.items():
        it.put(name, text)
    os.symlink("nothing", os.path.join(it.folder, "s/e.script"))
    os.symlink("../in", os.path.join(it.folder, "s/in/round"))


def below(it: Place, folder: str) -> List[str]:
    """The files below a folder."""
    top = os.path.join(it.folder, folder)
    return sorted(os.path.relpath(os.path.join(at, name), top) for at, _, names in os.walk(top) for name in names)


def goes_on_after_failures() -> str:
    """Each tool over all of them, by one process and by several, which write the same."""
    said = "s/d.script: there is no picture: no frame came after the last window\n"
    sums = "screenshot: 6 scripts: 2 failed, 1 with refused lines\n"
    with place() as it:
        put_all(it)
        for jobs in ("1", "3"):
            found = it.call("screenshot", "s", "--out", "made", "--jobs", jobs)
            why = unlike(found, 1, b"", said) or ("" if found[2].endswith(sums) else "it says %r" % found[2])
            if why or below(it, "made") != ["a.png", "in/b.png", "in/c.png", "other/a.png"]:
                return why or "files: %s" % below(it, "made")
            if png.parsed(it.read("made/in/b.png")).rows != [b"\0\0\xff" * 2] * 2:
                return "the picture of a script is that of another one"
            why = unlike(it.call("check", "s", "s/a.script", "--jobs", jobs, "--quiet"), 1,
                         b"s/in/c.script:5:1: 31 Syntax: no line begins with 'ad'; did you mean 'add'?\n",
                         "check: s/e.script cannot be read: No such file or directory\n")
            tree = b"s/a.script:\nv1 View 0 0 2 2 bg #ffff0000\n\ns/in/b.script:\nv1 View 0 0 2 2 bg #ff0000ff\n"
            why = why or unlike(it.call("tree", "s/a.script", "s/in/b.script", "--jobs", jobs), 0, tree, "")
            if why:
                return "%s jobs: %s" % (jobs, why)
        calls = (("tree", "s", "--json", "--out", "trees"), ("page", "s", "--out", "pages"))
        why = first(unlike(it.call(*words), 1, b"") for words in calls)
        names = below(it, "trees") + below(it, "pages")
        wanted = [name + ending for ending in (".json", ".html") for name in ("a", "in/b", "in/c", "other/a")]
        return why or ("" if names == wanted else "files: %s" % names)


def refuses_before_it_writes() -> str:
    said = {
        ("screenshot", "s/a.script", "s/other", "--out", "made"):
            "s/a.script and s/other/a.script would both be written as made/a.png; name the folder around them",
        ("screenshot", "s/a.script", "no.script", "--out", "made"): "no.script cannot be read: No such file or directory",
        ("tree", "s", "--out", "s/a.script"): "s/a.script cannot be written: it is no folder",
        ("screenshot", "s/a.script", "s/in/b.script"): "many scripts need --out DIR",
        ("page", "s", "a.html"): "many scripts need --out DIR",
        ("page", "s", "--out", "made", "--title", "x"): "--title takes a single script",
        ("tree", "s", "--json"): "the JSON of many scripts needs --out DIR",
        ("tree", "s", "--expanded"): "--expanded takes a single script",
        ("screenshot", "s", "--out", "made", "--frames", "./made"): "--out and --frames need two folders",
        ("screenshot", "s/in", "--stack", "9x9", "--out", "made"): "there is no *.stack in s/in",
    }
    with place() as it:
        put_all(it)
        before = below(it, ".")
        why = first(unlike(it.call(*words), 2, b"", what) for words, what in said.items())
        return why or ("" if below(it, ".") == before else "files: %s" % below(it, "."))


def takes_standard_input_too() -> str:
    with place() as it:
        put_all(it)
        why = unlike(it.call("screenshot", "-", "s/in/b.script", "--out", "made", "--frames", "each", given=RED), 0, b"", "")
        names = below(it, "made") + below(it, "each")
        return why or ("" if names == ["b.png", "stdin.png", "b/0001.png", "stdin/0001.png"] else "files: %s" % names)


def survives_a_worker() -> str:
    """A script whose program ends the process that runs it: tried twice, it is an error, and no other is lost."""
    with place() as it:
        put_all(it)
        act = "grep -q 0000ff && kill -9 $PPID\nprintf 'line 5: refused 31 Syntax\\nline 7: refused 31 Syntax\\n'"
        program = it.stand_in(act)
        found = it.call("check", "s/a.script", "s/in/b.script", "s/other/a.script", "--jobs", "2", **program)
        said = "check: s/in/b.script: the process that ran it ended by the signal 9, 2 times\n"
        return unlike(found, 1, None, said + "check: 3 scripts: 1 failed")


def ends_with_its_workers() -> str:
    """A call that is ended while workers run slow programs: they and their programs end too."""
    with place() as it:
        put_all(it)
        slow = it.stand_in("echo $$ >> programs; exec sleep 60")
        for number, status in ((signal.SIGTERM, 143), (signal.SIGINT, 130)):
            started = it.start("tools/screenshot", "s/a.script", "s/in/b.script", "--out", "made", "--jobs", "2",
                               stderr=subprocess.PIPE, **slow)
            end = time.monotonic() + SECONDS
            pids: List[str] = []
            while len(pids) < 2 and time.monotonic() < end:
                time.sleep(0.1)
                paths = [os.path.join(it.folder, name, "programs") for name in ("s", "s/in")]
                pids = [pid for path in paths if os.path.exists(path) for pid in open(path).read().split()]
            started.send_signal(number)
            started.communicate(timeout=SECONDS)
            left = subprocess.run(["ps", "-o", "stat=", "-p", ",".join(pids)], stdout=subprocess.PIPE).stdout.decode().split()
            if started.returncode != status or any(not it.startswith("Z") for it in left):
                return "status %d, and programs go on: %s" % (started.returncode, left)
            for name in ("s", "s/in"):
                os.unlink(os.path.join(it.folder, name, "programs"))
        return ""


def names_the_tool_for_it() -> str:
    """What is no script is said to be that, by its content or the end of its name, and by which tool it is taken."""
    said = {
        "a.xml": (b"\3\0\x08\0\0", "a.xml is no script: it is a compiled layout: "),
        "b.xml": (b"\xef\xbb\xbf\n <a/>", "b.xml is no script: it is XML: "),
        "c.apk": (b"PK\3\4", "c.apk is no script: it is an archive: "),
        "d.stack": (b"at 0 0 0\nin 0 window 9 9\nin 0 add rot\n",
                    "d.stack is no script: it is a script of a stack of windows: "),
    }
    with place() as it:
        for name, (body, why) in said.items():
            it.put(name, body)
            for words in (("tree", name), ("screenshot", name, "a.png"), ("page", name, "a.html"), ("check", name)):
                if words != ("check", "d.stack"):
                    found = unlike(it.call(*words), 2, b"", why)
                    if found:
                        return "%s: %s" % (" ".join(words), found)
        why = unlike(it.call("tree", "-", given="<a/>"), 2, b"", "standard input is no script: it is XML: ")
        refused = b"d.stack:3:10: 31 Syntax: 'rot' does not fit; did you mean 'root'?\n"
        return why or unlike(it.call("check", "d.stack"), 1, refused, "")


def checks() -> Checks:
    yield from named("many scripts", (
        goes_on_after_failures, refuses_before_it_writes, takes_standard_input_too, names_the_tool_for_it,
        survives_a_worker, ends_with_its_workers,
    ))

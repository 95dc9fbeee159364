"""Tries what farms of machines need of `tools/runall`: whatever ends, nothing is lost and nothing is reported twice;
parts, merged reports, and results that are kept."""
import contextlib
import os
import signal
import subprocess
import time
import xml.etree.ElementTree as ElementTree
from typing import Dict, Iterator, List, Sequence, Tuple

from launcher import goes_on
from running import PROGRAM, SECONDS, TOP, Checks, named, need
from tools import RED, Ended, Place, first, place, unlike

ANSWER = "v1\nsettled 0\n"
# a stand-in for the program that counts its runs, and then is the program
COUNTS = "echo x >> '%s/runs'\n" + "exec '%s' \"$@\"\n" % PROGRAM
# (name of the case, what is said of it: nothing, failure or error)
Said = Tuple[str, str]


@contextlib.contextmanager
def farm(count: int = 8) -> Iterator[Place]:
    """A folder with as many scripts that pass, and a cache of its own."""
    with place() as it:
        for number in range(count):
            it.put("s%02d.script" % number, RED + "# %d\n" % number)
            it.put("s%02d.answer" % number, ANSWER)
        yield it


def started(it: Place, *words: str, **variables: str) -> "subprocess.Popen[bytes]":
    """A call of runall that keeps nothing outside of the folder."""
    own = {"XDG_CACHE_HOME": os.path.join(it.folder, "home"), **variables}
    return it.start("tools/runall", *words, stderr=subprocess.PIPE, **own)


def ended(it: Place, *words: str, **variables: str) -> Tuple[int, List[str], str]:
    """Status, lines and messages of such a call."""
    call = started(it, *words, **variables)
    out, said = call.communicate(timeout=SECONDS)
    return call.returncode, out.decode().splitlines(), said.decode()


def reported(it: Place, name: str = "j.xml") -> List[Said]:
    """What a report says of each case."""
    suite = ElementTree.fromstring(it.read(name))
    return sorted((case.get("name", ""), "".join(part.tag for part in case if part.tag in ("failure", "error")))
                  for case in suite.iter("testcase"))


def once(it: Place, found: Sequence[Said]) -> str:
    """Why a report has not each case once, or nothing."""
    wanted = sorted(name for name in it.names() if name.endswith(".script"))
    return "" if [name for name, _ in found] == wanted else "the report has %s" % (found,)


def acting(it: Place, acts: str) -> Dict[str, str]:
    """The variables under which the program does something over scripts that have some text, as branches of `case` in a
    shell, and else what it does."""
    passes = "printf '%%s\\n' \"$given\" | '%s' \"$@\"" % PROGRAM
    return it.stand_in("given=$(cat); case $given in %s esac; %s" % (acts, passes))


def shell(it: Place, command: str) -> Ended:
    """How a command of a shell ends."""
    call = subprocess.run(["bash", "-c", command % (TOP + "/tools/runall")], cwd=it.folder, stdout=subprocess.PIPE,
                          stderr=subprocess.PIPE, timeout=SECONDS)
    return call.returncode, call.stdout, call.stderr.decode()


def runs_of(it: Place) -> int:
    """How often the program was run since this was asked last."""
    path = os.path.join(it.folder, "runs")
    if not os.path.exists(path):
        return 0
    count = len(it.read("runs"))
    os.unlink(path)
    return count // 2


def counting(it: Place) -> Dict[str, str]:
    """The variables under which the program's runs are counted."""
    return it.stand_in(COUNTS % it.folder)


def a_process_dies() -> str:
    """A process that dies has its case tried once more, and given up then; the others go on."""
    with farm() as it:
        it.put("s03.script", RED + "# dies\n")
        kills = "kill -9 $PPID; sleep 59;"
        words = (".", "--no-cache", "--junit", "j.xml", "--jobs", "3")
        status, lines, said = ended(it, *words, **acting(it, "*dies*) %s;" % kills))
        dead = ["failed: ./s03.script", "the process that ran it ended by the signal 9, 2 times", "7 passed, 1 failed"]
        if (status, lines) != (1, dead):
            return "status %d, %s%s" % (status, lines, said)
        found = reported(it)
        why = once(it, found) or ("" if [it for it in found if it[1]] == [("s03.script", "error")] else "%s" % found)
        single = "*dies*) test -e '%s/mark' || { touch '%s/mark'; %s };;" % (it.folder, it.folder, kills)
        status, lines, said = ended(it, *words, **acting(it, single))
        return why or once(it, reported(it)) or ("" if (status, lines) == (0, ["8 passed, 0 failed"]) else said)


def accepts_in_order() -> str:
    """What is accepted is printed in the order of the cases, whichever ends first; also what ended before a signal."""
    with farm() as it:
        for number in range(8):
            it.put("s%02d.answer" % number, "other\n")
        slow = acting(it, "*'# 0') sleep 1;; *'# 7') sleep 30;;")
        wanted = ["accepted: ./s%02d.script" % number for number in range(7)]
        call = started(it, ".", "--accept", "--no-cache", "--jobs", "4", **slow)
        end = time.monotonic() + SECONDS
        names = ["s%02d.answer" % number for number in range(7)]
        while any(it.read(name) != ANSWER.encode() for name in names) and time.monotonic() < end:
            time.sleep(0.05)
        time.sleep(0.5)
        call.send_signal(signal.SIGTERM)
        lines = call.communicate(timeout=SECONDS)[0].decode().splitlines()
        return "" if lines[:-1] == wanted else "%s" % lines


def waits(it: Place) -> Dict[str, str]:
    """A program that passes for the first scripts, and for the others only says that it has begun."""
    return acting(it, "*'# '[4-9]) echo $$ >> '%s/pids'; exec sleep 59;;" % it.folder)


def pids_of(it: Place, count: int) -> List[int]:
    """The processes of programs that have begun, once there is this number of them."""
    until = time.monotonic() + SECONDS
    while time.monotonic() < until:
        with contextlib.suppress(FileNotFoundError):
            found = it.read("pids").split()
            if len(found) >= count:
                return list(map(int, found))
        time.sleep(0.02)
    return []


def end_all(pids: Sequence[int]) -> bool:
    """Whether none of some processes goes on, which may take a moment."""
    until = time.monotonic() + 10
    while any(map(goes_on, pids)) and time.monotonic() < until:
        time.sleep(0.05)
    return not any(map(goes_on, pids))


def is_told_to_end() -> str:
    """Where a signal ends it, the report has each case once, those that were not run as errors, and no program goes
    on."""
    for number in (signal.SIGINT, signal.SIGTERM, signal.SIGHUP):
        with farm() as it:
            call = started(it, ".", "--junit", "j.xml", "--jobs", "2", **waits(it))
            pids = pids_of(it, 2)
            call.send_signal(number)
            out, said = call.communicate(timeout=SECONDS)
            found = reported(it)
            why = once(it, found)
            if why or out != b"4 passed, 4 failed\n" or call.returncode != 128 + number or not end_all(pids):
                return "%s: status %d, %r, %r, %s" % (number.name, call.returncode, out, said, why)
            if sum(what == "error" for _, what in found) != 4 or b"4 cases were not run" not in said:
                return "%s: %s %r" % (number.name, found, said)
    return ""


def is_killed() -> str:
    """Where it is killed its processes and programs end, and the next call runs only what has not passed."""
    with farm() as it:
        variables = waits(it)
        call = started(it, ".", "--jobs", "2", **variables)
        pids = pids_of(it, 2)
        # its output goes on as long as a process that it has started
        call.kill()
        call.wait()
        if not pids or not end_all(pids):
            return "a program goes on"
        it.put("program", "#!/usr/bin/env bash\n" + COUNTS % it.folder)
        lines = ended(it, ".", **variables)[1]
        return "" if (lines, runs_of(it)) == (["8 passed, 0 failed"], 8) else "%s" % lines


def goes_on_after_a_kill() -> str:
    """The same program: what passed before the kill is not run again."""
    with farm() as it:
        waiting = "test $(wc -l < '%s/runs') -lt 5 || { echo $$ >> '%s/pids'; exec sleep 59; }" % (it.folder, it.folder)
        act = "echo x >> '%s/runs'; test -e '%s/go' || %s\n" % (it.folder, it.folder, waiting)
        variables = it.stand_in(act + "exec '%s' \"$@\"\n" % PROGRAM)
        call = started(it, ".", "--jobs", "1", **variables)
        pids_of(it, 1)
        # its output goes on as long as a process that it has started
        call.kill()
        call.wait()
        before = runs_of(it)
        it.put("go", "")
        status, lines, _ = ended(it, ".", "--junit", "j.xml", **variables)
        after = runs_of(it)
        is_right = (status, lines, before, after) == (0, ["8 passed, 0 failed"], 5, 4)
        return once(it, reported(it)) or ("" if is_right else "%s; it ran %d and then %d" % (lines, before, after))


def few_files() -> str:
    """With 40 open files at most, 40 at once are no more than there is room for, and all pass."""
    with farm(60) as it:
        found = shell(it, "ulimit -n 40; exec '%s' . --no-cache --jobs 40 --junit j.xml")
        return once(it, reported(it)) or unlike(found, 0, b"60 passed, 0 failed\n", "")


def breaks_of_cases() -> str:
    """What never ends, what writes for ever, a signal, and a folder in the place of a file: each is the case's own."""
    with farm() as it:
        acts = "*slow*) exec sleep 59;; *long*) exec yes;; *kill*) kill -9 $$;;"
        for number, word in enumerate(("slow", "long", "kill")):
            it.put("s%02d.script" % number, RED + "# %s\n" % word)
        it.put("s03.script", RED + "inflate pipe.xml into v1\n")
        os.mkfifo(os.path.join(it.folder, "pipe.xml"))
        os.unlink(os.path.join(it.folder, "s04.answer"))
        os.mkdir(os.path.join(it.folder, "s04.answer"))
        words = (".", "--timeout", "2", "--junit", "j.xml", "--jobs", "1")
        status, lines, said = ended(it, *words, **acting(it, acts))
        slow, most = "it takes more than 2 seconds", len(ANSWER) + (1 << 20)
        wanted = [slow, "it writes more than %d bytes, and was ended" % most,
                  "the program was ended by the signal SIGKILL", slow, "./s04.answer is no file"]
        rows = [row for number, text in enumerate(wanted) for row in ("failed: ./s%02d.script" % number, text)]
        if (status, lines) != (1, [*rows, "3 passed, 5 failed"]):
            return "status %d, %s%s" % (status, lines, said)
        kinds = [what for _, what in reported(it)[:5]]
        return "" if kinds == ["error", "failure", "error", "error", "failure"] else "the report has %s" % kinds


# files of cases that cannot be run, and what is said of each; the second is also in a report
BROKEN = {
    "a.app.toml": ('app = "no.apk"\n', "no.apk cannot be read: No such file or directory"),
    "b.app.toml": ('app = "cut.apk"\n', "cut.apk"),
    "c.app.toml": ('app = "trips.apk"\nlayouts = ["hom"]\n', "the app has no layout 'hom'; did you mean 'home'?"),
    "d.app.toml": ('app = "trips.apk"\nbogus = 1\n', "; there are app, layouts, config, theme, framework, matrix, "),
    "e.args": ("", "./e.args has no words"),
    "f.script": (RED, "./f.toml:1:3: ']' is expected"),
    "g.args": ("lookup\n", "./g.args: the program does not know these arguments: lookup"),
}


def broken_cases() -> str:
    """A file from which no case can be made is an error of that case alone, also in the report."""
    with farm(2) as it:
        for name, (text, _) in BROKEN.items():
            it.put(name, text)
        with open(os.path.join(TOP, "examples", "trips", "trips.apk"), "rb") as file:
            app = file.read()
        it.put("trips.apk", app)
        it.put("cut.apk", app[:1000])
        it.put("f.toml", "[a")
        os.symlink("nowhere", os.path.join(it.folder, "y.script"))
        os.mkfifo(os.path.join(it.folder, "z.script"))
        status, lines, said = ended(it, ".", "--junit", "j.xml")
        wanted = [*BROKEN, "y.script", "z.script"]
        if (status, said, lines[-1:]) != (1, "", ["2 passed, %d failed" % len(wanted)]):
            return "status %d, %s%s" % (status, lines, said)
        found = dict(reported(it))
        if [found.get(name) for name in wanted] != ["error"] * len(wanted):
            return "the report has %s" % found
        told = {name: text for name, (_, text) in BROKEN.items()}
        told.update({name: "./%s is no file" % name for name in ("y.script", "z.script")})
        return first("" if text in lines[lines.index("failed: ./" + name) + 1] else "%s: %s" % (name, lines)
                     for name, text in told.items())


def full_disk() -> str:
    """Standard output that is full, and a report that cannot be written whole: the other one is written all the
    same. Of two that cannot each is named."""
    with farm(40) as it:
        found = shell(it, "exec '%s' . --no-cache --junit j.xml > /dev/full")
        why = once(it, reported(it)) or ("" if found[0] == 4 else "status %d" % found[0])
        found = shell(it, "ulimit -f 1; exec '%s' . --no-cache --junit k.xml")
        why = why or unlike(found, 2, b"40 passed, 0 failed\n", "k.xml cannot be written: File too large")
        why = why or ("" if "k.xml" not in it.names() else "a report is half written")
        found = shell(it, "ulimit -f 1; exec '%s' . --no-cache --junit k.xml --report pages")
        return why or first(unlike(found, 2, b"40 passed, 0 failed\n", "%s cannot be written: File too large" % name)
                            for name in ("k.xml", "pages/index.html"))


def results_as_they_end() -> str:
    """A slow case does not hold back what is said of others."""
    with farm(3) as it:
        it.put("s02.answer", "other")
        act = "*'# 0'*) while ! test -e '%s/go'; do sleep 0.1; done;;" % it.folder
        call = started(it, ".", "--no-cache", "--jobs", "2", **acting(it, act))
        assert call.stdout is not None
        line = call.stdout.readline()
        it.put("go", "")
        out, _ = call.communicate(timeout=SECONDS)
        is_right = line == b"failed: ./s02.script\n" and out.endswith(b"2 passed, 1 failed\n")
        return "" if is_right else "%r %r" % (line, out)


def follows_links() -> str:
    """Links to a folder, to a folder around, and to a script; and what is named twice."""
    with farm(2) as it:
        os.mkdir(os.path.join(it.folder, "real"))
        for name in ("a.script", "a.answer"):
            it.put("real/" + name, RED if name == "a.script" else ANSWER)
        os.mkdir(os.path.join(it.folder, "links"))
        os.symlink("../real", os.path.join(it.folder, "links", "by_link"))
        os.symlink("..", os.path.join(it.folder, "links", "above"))
        os.symlink("../real/a.script", os.path.join(it.folder, "links", "b.script"))
        os.symlink("../real/a.answer", os.path.join(it.folder, "links", "b.answer"))
        twice = ("real", "links/by_link", "real/a.script")
        calls = {("links/by_link",): 1, ("links",): 4, (".",): 4, twice: 1, (".", "s00.script", "."): 4}
        found = {words: ended(it, *words)[1] for words in calls}
        return first("" if found[words] == ["%d passed, 0 failed" % count] else "%s: %s" % (words, found[words])
                     for words, count in calls.items())


def shows_odd_names() -> str:
    with farm(1) as it:
        it.put("a\x1b[31m.script", RED)
        status, lines, said = ended(it, ".", "--junit", "j.xml")
        is_right = "failed: ./a\\x1b[31m.script" in lines and reported(it)[0][0] == "a?[31m.script"
        return "" if is_right and status == 1 else "%s%s" % (lines, said)


def parts_of(it: Place, of: int, folder: str = ".") -> List[List[str]]:
    """The names of the cases of each part."""
    parts = [ended(it, folder, "--list", "--shard", "%d/%d" % (part, of))[1] for part in range(1, of + 1)]
    return [[name.replace(folder, ".") for name in part if "/a.script" not in name] for part in parts]


def parts_by_names() -> str:
    """Each case is in one part; another case moves none; neither do other places; an empty part passes."""
    with farm(40) as it:
        before = parts_of(it, 4)
        names = sorted(name for part in before for name in part)
        if names != ["./s%02d.script" % number for number in range(40)] or not all(before):
            return "the parts have %s" % before
        it.put("a.script", RED)
        it.put("a.answer", ANSWER)
        if before != parts_of(it, 4) or before != parts_of(it, 4, it.folder):
            return "a new script, or another path, moves others"
        empty = ended(it, "s00.script", "s01.script", "--shard", "7/9")
        return "" if empty[:2] == (0, ["0 passed, 0 failed"]) else "an empty part: %s" % (empty,)


def protocol_of_bazel() -> str:
    with farm(12) as it:
        os.mkdir(os.path.join(it.folder, "tmp"))
        found = []
        for place_of_part in range(3):
            names = {"TEST_SHARD_INDEX": str(place_of_part), "TEST_TOTAL_SHARDS": "3",
                     "TEST_TMPDIR": os.path.join(it.folder, "tmp"), "XML_OUTPUT_FILE": "x%d.xml" % place_of_part,
                     "TEST_SHARD_STATUS_FILE": "touched%d" % place_of_part}
            status, lines, said = ended(it, ".", **names)
            if status or "touched%d" % place_of_part not in it.names():
                return "status %d, %s%s" % (status, lines, said)
            found += reported(it, "x%d.xml" % place_of_part)
        why = once(it, sorted(found)) or ("" if "home" not in it.names() else "it writes into the home")
        only = ended(it, ".", TESTBRIDGE_TEST_ONLY="s0[12]*")[1], ended(it, ".", TESTBRIDGE_TEST_ONLY="nothing")
        if only[0] != ["2 passed, 0 failed"] or only[1][:2] != (0, ["0 passed, 0 failed"]):
            return why or "TESTBRIDGE_TEST_ONLY: %s" % (only,)
        wrong = ended(it, ".", TEST_TOTAL_SHARDS="3", TEST_SHARD_INDEX="3")
        return why or ("" if wrong[0] == 2 and "are no part" in wrong[2] else "%s" % (wrong,))


def merges_parts() -> str:
    """A report of all parts has each case once; a part that is missing, cut, or there twice is said."""
    with farm(20) as it:
        for part in (1, 2, 3):
            ended(it, ".", "--shard", "%d/3" % part, "--junit", "p%d.xml" % part)
        merge = ("--of", ".", "--junit", "all.xml", "--merge")
        whole = ended(it, *merge, "p1.xml", "p2.xml", "p3.xml")
        why = once(it, reported(it, "all.xml"))
        why = why or ("" if whole == (0, ["20 passed, 0 failed"], "") else "%s" % (whole,))
        count = len(reported(it, "p2.xml"))
        lacking = ended(it, *merge, "p1.xml", "p3.xml")
        said = (lacking[0], lacking[1][-1], lacking[2])
        sums = "%d passed, %d failed" % (20 - count, count)
        if why or said != (1, sums, "runall: there is no report of part 2 of 3\n"):
            return why or "without a part: %s" % (lacking,)
        if once(it, reported(it, "all.xml")) or sum(what == "error" for _, what in reported(it, "all.xml")) != count:
            return "without a part the report has %s" % reported(it, "all.xml")
        it.put("p2.xml", it.read("p2.xml")[:300])
        cut = ended(it, *merge, "p1.xml", "p2.xml", "p3.xml")
        twice = ended(it, *merge, "p1.xml", "p1.xml", "p3.xml", "no.xml")
        parts = [(cut[2], "p2.xml is no whole report"), (twice[2], "in more than one report"),
                 (twice[2], "no.xml cannot be read")]
        is_right = (cut[0], twice[0]) == (1, 1) and all(part in text for text, part in parts)
        return "" if is_right else "%s %s" % (cut, twice)


def put_all_inputs(it: Place) -> None:
    """A script with everything on which an answer may depend."""
    it.put("ids.txt", "app:id/a = 0x7f080001\n")
    it.put("a.script", "include start.lines\nid v1 @id/a\ninflate b.xml into v1\nframe\n")
    it.put("start.lines", "window 60 60\nadd root FrameLayout match match\n")
    it.put("a.toml", "picture = true\n[x]\nwindow = [40, 40]\n")
    with open(os.path.join(TOP, "examples", "a.xml"), "rb") as file:
        it.put("b.xml", file.read())
    it.put("c.args", "lookup b.xml 7f010000\n")
    it.put("d.script", RED + "add v1 View 1 1\nanswer v2 click\n")
    it.put("d.args", "focus left v2\n")
    it.put("e.stack", "at 0 0 0\nin 0 window 4 4\n")


# what is added to a file, and how many of the four cases do not depend on it
CHANGES = {
    "a.script": (b"\nbg v1 #ff0000ff\n", 3), "ids.txt": (b"app:id/b = 0x7f080002\n", 0),
    "start.lines": (b"dpi 240\n", 3), "b.xml": (b"\0", 2), "a.toml": (b"dpi = 320\n", 3), "a@x.png": (b"x", 3), "a@x.answer": (b"x", 3),
    "c.args": (b" 7f010001", 3), "d.args": (b"1", 3), "d.script": (b"x\n", 3), "e.stack": (b"x\n", 3),
    "e.answer": (b"x", 3), "program": (b"\n", 0),
}


def known_of(it: Place, variables: Dict[str, str]) -> int:
    """How many cases are known to have passed, as the report of a call says it."""
    ended(it, ".", "--junit", "k.xml", **variables)
    suite = ElementTree.fromstring(it.read("k.xml"))
    return next(int(row.get("value", "")) for row in suite.iter("property") if row.get("name") == "vindaesk.known")


def keeps_what_passed() -> str:
    """What passed is not run again, until something changes on which that depends; then it is, and fails where it
    should."""
    with farm(0) as it:
        put_all_inputs(it)
        variables = counting(it)
        ended(it, ".", "--accept", **variables)
        ended(it, ".", **variables)
        runs_of(it)
        again = ended(it, ".", "--junit", "j.xml", **variables)
        if again[:2] != (0, ["4 passed, 0 failed"]) or runs_of(it):
            return "a second time: %s" % (again,)
        for name, (more, known) in CHANGES.items():
            kept = it.read(name)
            it.put(name, kept + more)
            if known_of(it, variables) != known:
                return "after a change of %s %d are known, and not %d" % (name, known_of(it, variables), known)
            it.put(name, kept)
            if known_of(it, variables) != 4:
                return "%s is as before, and something is run" % name
        it.put("a@x.status", "1\n")
        return "" if ended(it, ".", **variables)[1][-1] == "3 passed, 1 failed" else "a new status is not seen"


def keeps_no_failures() -> str:
    with farm(2) as it:
        it.put("s00.answer", "x")
        variables = counting(it)
        runs = []
        limit, other = ("--timeout", "9"), ("--cache", "other")
        for words in ((), (), ("--no-cache",), limit, limit, other, other):
            ended(it, ".", *words, **variables)
            runs.append(runs_of(it))
        if runs != [2, 1, 2, 2, 1, 2, 1]:
            return "it ran %s" % runs
        it.put("file", "")
        wrong = ended(it, ".", "--cache", "file/x")
        return "" if wrong[0] == 2 and "file/x cannot be made" in wrong[2] else "%s" % (wrong,)


def changes_meanwhile() -> str:
    """What is changed while it is run is not kept by what it was before."""
    with farm(1) as it:
        act = "*) echo x >> '%s/runs'; echo '# y' >> '%s/s00.script';;" % (it.folder, it.folder)
        variables = acting(it, act)
        before = it.read("s00.script")
        runs = []
        for _ in range(2):
            it.put("s00.script", before)
            ended(it, ".", **variables)
            runs.append(runs_of(it))
        return "" if runs == [1, 1] else "it ran %s" % runs


def several_at_once() -> str:
    """Several calls keep results in one folder at once."""
    with farm(40) as it:
        calls = [started(it, ".", "--jobs", "2") for _ in range(4)]
        outs = [call.communicate(timeout=SECONDS) for call in calls]
        if any(out != (b"40 passed, 0 failed\n", b"") for out in outs):
            return "%s" % outs
        variables = counting(it)
        return "" if ended(it, ".", **variables)[1] == ["40 passed, 0 failed"] else "they differ"


def invalid(it: Place, name: str, schema: str) -> List[str]:
    """What does not fit a schema of ci/schemas/: the attributes and elements that xmllint names."""
    path = os.path.join(TOP, "ci", "schemas", schema)
    ended_by = subprocess.run([need("xmllint"), "--noout", "--schema", path, os.path.join(it.folder, name)],
                              stdout=subprocess.PIPE, stderr=subprocess.STDOUT)
    rows = ended_by.stdout.decode().splitlines()
    if ended_by.returncode == 0:
        return []
    return sorted({row.split(": ", 2)[-1] for row in rows if "error" in row} or {rows[-1]})


def fits_schemas() -> str:
    """Reports fit the schemas of Jenkins and of Ant: the strict ones whole, the others less the attribute `file`."""
    with farm(6) as it:
        it.put("s01.answer", "x\x01y\n\xff")
        os.unlink(os.path.join(it.folder, "s02.answer"))
        variables = acting(it, "*'# 3') kill -9 $$;;")
        ended(it, ".", "--junit", "one.xml", **variables)
        ended(it, ".", "--junit", "two.xml", "--junit-family", "xunit2", **variables)
        ended(it, "s00.script", "--report", "page", "--junit", "three.xml", "--junit-family", "xunit2")
        ended(it, "--merge", "two.xml", "--of", ".", "--junit", "merged.xml")
        for name in ("two.xml", "three.xml", "merged.xml"):
            for schema in ("junit-10.xsd", "ant.xsd"):
                if invalid(it, name, schema):
                    return "%s: %s" % (schema, invalid(it, name, schema))
        file = ["Schemas validity error : Element 'testcase', attribute 'file': The attribute 'file' is not allowed."]
        if invalid(it, "one.xml", "junit-10.xsd") != file or invalid(it, "one.xml", "ant.xsd") != file:
            return "xunit1: %s" % invalid(it, "one.xml", "junit-10.xsd")
        suite = ElementTree.fromstring(it.read("one.xml"))
        found = [(part.tag, part.get("type"), part.get("message")) for case in suite.iter("testcase") for part in case]
        wanted = [("failure", "AnswerDiffers", "line 1 should be 'x?y', and is 'v1'"),
                  ("failure", "NothingStored", "it has no s02.answer; --accept writes one"),
                  ("error", "ProgramEnded", "the program was ended by the signal SIGKILL")]
        counts = [suite.get(name) for name in ("tests", "failures", "errors")]
        return "" if (found, counts) == (wanted, ["6", "2", "1"]) else "%s %s" % (found, counts)


def checks() -> Checks:
    yield from named("farms", (
        fits_schemas, accepts_in_order, a_process_dies, is_told_to_end, is_killed, goes_on_after_a_kill, few_files,
        breaks_of_cases, broken_cases, full_disk, results_as_they_end, follows_links, shows_odd_names, parts_by_names, protocol_of_bazel,
        merges_parts,
        keeps_what_passed, keeps_no_failures, changes_meanwhile, several_at_once
    ))

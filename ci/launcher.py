"""Tries ./vindaesk itself, in a small repository with a stand-in for the toolchain, whose program does what a
variable says.
"""
import contextlib
import fcntl
import os
import pty
import re
import shutil
import signal
import subprocess
import tempfile
import time
from typing import IO, Any, Dict, Iterator, List, Set, Tuple

from running import SECONDS, TOP, Checks, Skipped, named, run
from vindaesk.scripts import explanations

# the toolchain's stand-in: it records each call, locks the folders of crates as the toolchain does, and "builds" a
# program that does what the variable ACT says
TOOLCHAIN = r"""#!/usr/bin/env bash
[[ $1 == version ]] && echo "kit of the checks" && exit
for folder in ../*/; do
    exec {lock}< "$folder" && flock "$lock"
done
echo "${PWD##*/} $*" >> "$CALLS"
mkdir -p out
case $1 in
    lib) echo "so far: 1 of 2 functions checked; the verdict comes last"; eval "${BUILD-}"; exit "${PROOF:-0}" ;;
    run) printf '%s\n' '#!/usr/bin/env bash' 'eval "$ACT"' > out/view_tool && chmod +x out/view_tool ;;
esac
"""
SENTENCES = {3: "read", 4: "written", 5: "memory", 6: "file", 7: "16777216 bytes"}
WRONG: List[List[str]] = [[], ["gen"], ["gen", "0"], ["gen", "101"], ["gen", "01"], ["gen", "1", "2"], ["gen", "x"], ["Run"],
         ["run", "x"], ["dump"], ["dump", "../README.md"], ["dump", ".a"], ["dump", "a" * 65], ["dump", "a", "b"],
         ["dump", "é"], ["dump", ""], ["lookup"], ["lookup", "a"], ["lookup", "a", "7f05000"], ["lookup", "a", "7f05000g"],
         ["lookup", "a", "7f0500000"], ["lookup", ".a", "7f050000"], ["lookup", "a", *["7f050000"] * 65],
         ["lookup", "a", "7f050000", ""], ["focus"], ["focus", "left"], ["focus", "left", "v1", "x"], ["focus", "Left", "v1"],
         ["focus", "left", "v01"], ["focus", "left", "v12345678901"], ["focus", "up", "@"], ["focus", "up", "@123456789"],
         ["focus", "up", "root"], ["stack", "x"], ["stacks"], ["--help", "x"], ["explain", "nothing"], ["explain", "31", "x"], ["explain", ""],
         ["--prove"], ["--prove", "gen", "0"], ["-x"], ["tre"], ["main"], ["arguments"], ["x\ny"]]
# words that are explained, and what is said of them
EXPLAINED = {
    "NoView": "28 NoView: no view has the number or the id.\nIt comes at any line that names a view, and at focus SIDE V.\n",
    "frame": "The line frame lays out the whole tree in the window",
    "gravity": "The line gravity V self G sets where V is placed in its parent: none, or words joined by |, at most",
    "layout_alignTop": "The attribute layout_alignTop of a layout file takes: reference (id).\nIt sets: the rule",
    "layout_marginEnd": "The attribute layout_marginEnd of a layout file takes: length -1048575..1048575.\n",
    "Button": "The class Button is none of the program's six, View, TextView, FrameLayout, LinearLayout, RelativeLayout, ScrollView: "
              "refused, 23 UnknownClass. tools/app makes a TextView of it; exact, by style and theme.\n",
    "androidx.viewpager2.widget.ViewPager2": "The class androidx.viewpager2.widget.ViewPager2 is none of the program's six",
    "style": "style: the program alone: passed over. With tools/app: put in place by the theme.\n",
    "android:textSize": "textSize: the program alone: passed over; a character is 6 by 8 pixels. With tools/app: reported as text.\n",
    "app:layout_constraintTop_toTopOf": "layout_constraintTop_toTopOf: the program alone: passed over. With tools/app: solved",
    "tools:text": "tools:text: the program alone: passed over.",
    "?android:attr/textColor": "?attr: the program alone: refused, 13 ThemeRef. With tools/app: of the theme.\n",
    "@string/app_name": "@string: the program alone: values by res lines. With tools/app: of the app's table.\n",
    "selector": "selector: the program alone: refused.",
    "match_parent": "match_parent: the program alone: exact.",
    "cursorVisible": "The attribute cursorVisible of Android has no effect on the program, which counts it as ignored.",
}
# words that mean nothing, and what is near
NEAR = {"Buton": "Button", "textsize": "textSize", "Fragment": "fragment", "syntax": "Syntax"}


class Ended:
    def __init__(self, status: int, out: bytes, said: str):
        self.status, self.out, self.said = status, out, said


class Repository:
    """A repository with a launcher, two crates without anything in them, and the toolchain's stand-in."""

    def __init__(self, folder: str):
        self.folder = folder
        self.calls = os.path.join(folder, "calls")
        for name in ("kit", "temporary", "crates/low/src", "crates/view_tool/src"):
            os.makedirs(os.path.join(folder, name))
        shutil.copy(os.path.join(TOP, "vindaesk"), folder)
        for name in ("docs", "tools"):
            shutil.copytree(os.path.join(TOP, name), os.path.join(folder, name), ignore=shutil.ignore_patterns("__pycache__"))
        for name, text in (("crates.txt", "low:\nview_tool: low\n"), ("HANDLES", ""), ("calls", ""),
                           ("VERSION", "1.2.3\n"),
                           ("kit/rt", TOOLCHAIN), ("crates/low/src/lib.rt", ""),
                           ("crates/view_tool/src/main.rt", "")):
            with open(os.path.join(folder, name), "w") as file:
                file.write(text)
        os.chmod(os.path.join(folder, "kit/rt"), 0o755)

    def start(self, words: List[str], has_toolchain: bool = True, **how: Any) -> "subprocess.Popen[bytes]":
        act = how.pop("act", "")
        kept = [it for it in os.environ["PATH"].split(":") if not os.path.exists(os.path.join(it, "rt"))]
        mine = {name: value for name, value in os.environ.items() if not name.startswith("VINDAESK_")}
        own = {"PATH": ":".join([os.path.join(self.folder, "kit")] * has_toolchain + kept), "CALLS": self.calls,
               "ACT": act, "TMPDIR": os.path.join(self.folder, "temporary"), "PROOF": how.pop("proof", "0"),
               "BUILD": how.pop("build", ""), "VINDAESK_JOBS": how.pop("jobs", "2"),
               "VINDAESK_MEMORY": how.pop("memory", "20")}
        pipes: Dict[str, Any] = {"stdin": subprocess.PIPE, "stdout": subprocess.PIPE, "stderr": subprocess.PIPE, **how}
        env = {**mine, **own}
        started: "subprocess.Popen[bytes]" = subprocess.Popen(["./vindaesk", *words], cwd=self.folder, env=env, **pipes)
        return started

    def call(self, words: List[str], given: bytes = b"", **how: Any) -> Ended:
        started = self.start(words, **how)
        out, said = started.communicate(given, timeout=SECONDS)
        return Ended(started.returncode, out, (said or b"").decode())

    def add(self, name: str, needed: str, is_needed: bool = True) -> None:
        """Another crate, which uses others and may be used by the program."""
        os.makedirs(os.path.join(self.folder, "crates", name, "src"))
        rows = ["%s: %s" % (name, needed), self.read("crates.txt").rstrip("\n") + (" " + name) * is_needed]
        with open(os.path.join(self.folder, "crates.txt"), "w") as file:
            file.write("".join(row + "\n" for row in rows))

    def has(self, name: str) -> bool:
        """Whether a file is there."""
        return os.path.exists(os.path.join(self.folder, name))

    def read(self, name: str) -> str:
        with open(os.path.join(self.folder, name)) as file:
            return file.read()

    def leavings(self) -> List[str]:
        """The temporary files that are there."""
        return os.listdir(os.path.join(self.folder, "temporary"))

    def builds(self) -> List[str]:
        """The toolchain's calls so far."""
        return self.read("calls").splitlines()


def written_by(started: "subprocess.Popen[bytes]") -> IO[bytes]:
    """The standard output of a process."""
    assert started.stdout is not None
    return started.stdout


def said_by(started: "subprocess.Popen[bytes]") -> IO[bytes]:
    """The standard error of a process."""
    assert started.stderr is not None
    return started.stderr


@contextlib.contextmanager
def repository(is_built: bool = True) -> Iterator[Repository]:
    with tempfile.TemporaryDirectory() as folder:
        made = Repository(folder)
        if is_built:
            made.call(["run"])
        yield made


def asks_for_help() -> str:
    with repository(is_built=False) as it:
        for word in ("--help", "-h", "help"):
            ended = it.call([word])
            if (ended.status, ended.said, b"usage: vindaesk WORD" in ended.out) != (0, "", True):
                return "%s: status %d, '%s'" % (word, ended.status, ended.said)
        for words in WRONG:
            ended = it.call(words)
            is_short = ended.said.count("\n") == 1 and re.search("vindaesk (--help|help|explain)", ended.said) is not None
            if (ended.status, ended.out, is_short) != (2, b"", True):
                return "%s: status %d, '%s'" % (words, ended.status, ended.said)
        return "help builds" if it.builds() else ""


def hints() -> str:
    """What is said of a path, and of a layout file that is not compiled."""
    with repository() as it:
        said = it.call(["dump", "res/layout/a.xml"]).said
        if "cd res/layout first" not in said:
            return "a path: '%s'" % said
        texts = {b"<View/>": True, b"\xef\xbb\xbf \n<?xml?>": True, b"\xff\xfe<\0V\0": True, b"\3\0\x08\0<": False,
                 b"": False}
        for text, is_said in texts.items():
            with open(os.path.join(it.folder, "a.xml"), "wb") as file:
                file.write(text)
            ended = it.call(["dump", "a.xml"], act="exit 1")
            if (ended.status, "a.xml is XML as text" in ended.said) != (1, is_said):
                return "%r: status %d, '%s'" % (text, ended.status, ended.said)
        return ""


def example_of_help() -> str:
    """The usage's own example, over the program."""
    said = subprocess.run(["./vindaesk", "--help"], cwd=TOP, stdout=subprocess.PIPE).stdout.decode()
    command, *answer = re.findall(r"^    (\S.*)$", said, re.M)
    written, _ = run(["bash", "-c", command], b"", TOP)
    return "" if written.decode().splitlines() == answer else "it writes '%s'" % written.decode()


def refusals() -> Set[Tuple[str, str]]:
    """The number and the name of each refusal that the program has."""
    with open(os.path.join(TOP, "crates/tool_replies/src/names.rt")) as file:
        names = re.findall(r'^    b"(\w*)",$', file.read(), re.M)
    with open(os.path.join(TOP, "crates/axml_chunks/src/cause.rt")) as file:
        faults = re.findall(r"^ +Cause::\w+ => (\d+),$", file.read(), re.M)
    with open(os.path.join(TOP, "crates/view_model/src/refusals.rt")) as file:
        numbers = re.findall(r"^pub const \w+: u8 = (\d+);$", file.read(), re.M)
    return {(number, names[int(number)]) for number in faults + numbers}


def explains() -> str:
    with repository(is_built=False) as it:
        tables = explanations.read()
        for number, name in sorted(refusals()):
            if not explanations.explained(tables, number).startswith("%s %s: " % (number, name)):
                return "%s %s: '%s'" % (number, name, explanations.explained(tables, number))
        if "\n    frame\n" not in it.call(["explain", "31"]).out.decode():
            return "31 does not list the lines"
        for word, text in EXPLAINED.items():
            ended = it.call(["explain", word])
            if ended.status or not ended.out.decode().startswith(text):
                return "%s: status %d, '%s'" % (word, ended.status, ended.out.decode())
        listed = it.call(["explain"]).out.decode()
        for line in ("    31 Syntax\n", "    gravity V kids G\n", "    layout_alignParentEnd\n"):
            if line not in listed:
                return "%r is not listed" % line
        for word, near in NEAR.items():
            if "; did you mean '%s'?" % near not in it.call(["explain", word]).said:
                return "nothing is near '%s'" % word
        for number in ("0", "50", "999", "syntax", "root"):
            ended = it.call(["explain", number])
            if (ended.status, ended.out) != (2, b""):
                return "%s is explained" % number
        return "it builds" if it.builds() else ""


def prints_version() -> str:
    with repository(is_built=False) as it:
        ended = it.call(["--version"])
        head = rb"vindaesk 1[.]2[.]3\nreplies 1\ncommit .+\nprogram none of these sources: .+\n"
        if not re.fullmatch(head + rb"kit of the checks\n", ended.out):
            return "it prints '%s'" % ended.out.decode()
        ended = it.call(["version"], has_toolchain=False)
        is_right = re.fullmatch(head, ended.out) and ended.status == 0
        return "" if is_right else "without the toolchain it prints '%s'" % ended.out.decode()


def lacks_toolchain() -> str:
    with repository(is_built=False) as it:
        ended = it.call(["run"], has_toolchain=False)
        if (ended.status, ended.out, ended.said.count("\n")) != (126, b"", 1) or "not on PATH" not in ended.said:
            return "status %d, '%s'" % (ended.status, ended.said)
        it.call(["run"])
        ended = it.call(["run"], has_toolchain=False, act="exit 1")
        return "" if (ended.status, ended.said) == (1, "") else "a built program needs it: '%s'" % ended.said


def builds() -> str:
    with repository(is_built=False) as it:
        it.add("other", "low", is_needed=False)
        ended = it.call(["run"], act="echo answer")
        if (ended.status, ended.out) != (0, b"answer\n"):
            return "status %d, and it writes '%s': %s" % (ended.status, ended.out.decode(), ended.said)
        for part in ("from nothing about", "proving low, 0 of 2 crates done\n", "proving view_tool, 1 of 2 crates"):
            if part not in ended.said:
                return "'%s' is not in '%s'" % (part, ended.said)
        it.call(["run"])
        if it.builds() != ["low lib --jobs 2", "view_tool run --jobs 2 -- run"]:
            return "calls: %s" % it.builds()
        os.remove(os.path.join(it.folder, "crates/low/src/lib.rt"))
        it.call(["run"])
        if len(it.builds()) != 4:
            return "a source that is gone is not seen"
        return "temporary files stay" if it.leavings() else ""


def builds_side_by_side() -> str:
    """Two crates that wait for one another as they are built, both over the same one, and one that uses both."""
    build = """
        mkdir -p out/rlib && touch "out/rlib/${PWD##*/}" out/kept
        case ${PWD##*/} in
            a | b) [[ -e ../low/out/rlib/low && ! -e ../low/out/kept && ! -e ../both ]] || exit 1
                touch "$TMPDIR/../${PWD##*/}.begun"
                for k in {1..600}; do [[ -e $TMPDIR/../a.begun && -e $TMPDIR/../b.begun ]] && exit 0; sleep 0.1; done
                exit 1 ;;
            both) [[ -e ../a/out/rlib/a && -e ../b/out/rlib/b && -e ../low/out/rlib/low ]] ;;
        esac"""
    with repository(is_built=False) as it:
        it.add("b", "low")
        it.add("a", "low")
        it.add("both", "a b")
        ended = it.call(["run"], build=build, act="true", jobs="4")
        order = [call.split(" ")[0] for call in it.builds()]
        if ended.status or order[:1] + sorted(order[1:3]) + order[3:] != ["low", "a", "b", "both", "view_tool"]:
            return "status %d, calls: %s, '%s'" % (ended.status, it.builds(), ended.said)
        lost = [name for name in ("low", "a", "b", "both") if not it.has("crates/%s/out/rlib/%s" % (name, name))]
        return "what is built of %s is not in the checkout" % lost if lost else ""


def builds_within_memory() -> str:
    """Three crates that do not use each other: side by side, and in turn where memory is short."""
    build = 'echo begun >> "$TMPDIR/../begun.log"; sleep 0.3; echo ended >> "$TMPDIR/../begun.log"'
    for size, is_in_turn in (("20", False), ("1", True)):
        with repository(is_built=False) as it:
            it.add("b", "")
            it.add("a", "")
            ended = it.call(["run"], build=build, act="true", jobs="3", memory=size)
            words = it.read("begun.log").split()
            if ended.status or (words == ["begun", "ended"] * 3) != is_in_turn:
                return "with %s GB: status %d, %s" % (size, ended.status, words)
    with repository(is_built=False) as it:
        ended = it.call(["run"], memory="much")
        is_said = "VINDAESK_MEMORY is 'much', and no number" in ended.said
        return "" if ended.status == 126 and is_said else "'much': status %d, '%s'" % (ended.status, ended.said)


def started_builds(it: Repository, **how: Any) -> Tuple["subprocess.Popen[bytes]", int]:
    """The launcher, and the process of the toolchain that it has started, which waits."""
    started = it.start(["run"], build='mkdir -p out/rlib; touch out/kept; echo $$ > "$TMPDIR/pid"; exec sleep 60', **how)
    path = os.path.join(it.folder, "temporary", "pid")
    until = time.monotonic() + SECONDS
    while not (os.path.exists(path) and os.path.getsize(path)) and time.monotonic() < until:
        time.sleep(0.01)
    with open(path) as file:
        pid = int(file.read())
    os.unlink(path)
    return started, pid


def goes_on(pid: int) -> bool:
    """Whether a process is still there after some seconds."""
    for _ in range(500):
        with contextlib.suppress(OSError), open("/proc/%d/stat" % pid) as file:
            if file.read().rpartition(") ")[2][0] != "Z":
                time.sleep(0.01)
                continue
        return False
    return True


def build_can_be_ended() -> str:
    for name in (signal.SIGINT, signal.SIGTERM, signal.SIGHUP):
        with repository(is_built=False) as it:
            started, pid = started_builds(it)
            started.send_signal(name)
            started.communicate(timeout=SECONDS)
            if started.returncode != -name or goes_on(pid):
                return "%s: status %d, or the toolchain goes on" % (name.name, started.returncode)
            if it.leavings() or not it.has("crates/low/out/kept"):
                return "%s: temporary files stay, or what was kept is lost" % name.name
    return ""


def build_goes_on_after_a_kill() -> str:
    """What a build that was killed has kept is there in the next."""
    with repository(is_built=False) as it:
        started, pid = started_builds(it, start_new_session=True)
        os.killpg(started.pid, signal.SIGKILL)
        os.kill(pid, signal.SIGKILL)
        started.communicate(timeout=SECONDS)
        if it.has("crates/low/out/kept"):
            return "it was not built in a room"
        ended = it.call(["run"], build="[[ -e out/kept ]]", act="true")
        if ended.status or it.leavings():
            return "status %d, temporary files: %s, '%s'" % (ended.status, it.leavings(), ended.said)
        return ""


def lost_build_is_tried_again() -> str:
    killed = 'echo "${PWD##*/}" >> "$TMPDIR/../tried.log"; [[ $(wc -l < "$TMPDIR/../tried.log") -gt %d ]] || kill -9 0'
    for times, status, text in ((1, 0, "low was killed, most likely for memory"), (2, 126, "low could not be built")):
        with repository(is_built=False) as it:
            ended = it.call(["run"], build=killed % times, act="true")
            if (ended.status, text in ended.said) != (status, True):
                return "killed %d times: status %d, '%s'" % (times, ended.status, ended.said)
            if it.builds()[:2] != ["low lib --jobs 2", "low lib --jobs 1"]:
                return "calls: %s" % it.builds()
    return ""


def waits_for_the_toolchain() -> str:
    """Another call of the toolchain is in the folder of a crate."""
    with repository(is_built=False) as it:
        handle = os.open(os.path.join(it.folder, "crates/low"), os.O_RDONLY)
        fcntl.flock(handle, fcntl.LOCK_EX)
        started = it.start(["run"], act="true")
        line = said_by(started).readline() + said_by(started).readline()
        has_begun = bool(it.builds())
        os.close(handle)
        started.communicate(timeout=SECONDS)
        is_right = b"waiting for another rt to finish in" in line and not has_begun and started.returncode == 0
        return "" if is_right else "status %d, '%s'" % (started.returncode, line.decode())


def builds_once_for_two() -> str:
    with repository(is_built=False) as it:
        first, pid = started_builds(it)
        second = it.start(["run"], act="echo second")
        said = said_by(second).readline()
        os.kill(pid, signal.SIGTERM)
        first.communicate(timeout=SECONDS)
        out, _ = second.communicate(timeout=SECONDS)
        is_right = b"another call builds the program" in said and (second.returncode, out) == (0, b"second\n")
        return "" if is_right and first.returncode == 126 else "status %d and %d" % (first.returncode, second.returncode)


def circle_fails() -> str:
    with repository(is_built=False) as it:
        it.add("a", "b")
        it.add("b", "a")
        ended = it.call(["run"])
        is_right = ended.status == 126 and "use one another in a circle" in ended.said
        return "" if is_right else "status %d, '%s'" % (ended.status, ended.said)


def proof_fails() -> str:
    with repository(is_built=False) as it:
        ended = it.call(["run"], proof="1", build='echo "fn f: proved"; echo "$PWD/src/lib.rt:1:1: error: no"')
        if (ended.status, ended.out) != (126, b"") or "low could not be built" not in ended.said:
            return "status %d, '%s'" % (ended.status, ended.said)
        shown = "\n%s/crates/low/src/lib.rt:1:1: error: no\n" % os.path.realpath(it.folder)
        if shown not in ended.said or "proved" in ended.said or it.leavings():
            return "it prints '%s', and leaves %s" % (ended.said, it.leavings())
    with repository(is_built=False) as it:
        it.add("b", "")
        it.add("a", "")
        ended = it.call(["run"], build="sleep 0.5; exit 1", jobs="3")
        is_right = ended.status == 126 and ended.said.count("could not be built") == 1 and not it.leavings()
        return "" if is_right else "of three at once: status %d, '%s'" % (ended.status, ended.said)


def passes_statuses() -> str:
    with repository() as it:
        for status in range(8):
            ended = it.call(["run"], act="exit %d" % status)
            sentence = SENTENCES.get(status)
            is_printed = sentence in ended.said and ended.said.count("\n") == 1 if sentence else ended.said == ""
            if (ended.status, ended.out) != (status, b"") or not is_printed:
                return "%d: status %d, '%s'" % (status, ended.status, ended.said)
        return ""


def passes_signals() -> str:
    with repository() as it:
        for name in (signal.SIGTERM, signal.SIGINT, signal.SIGKILL, signal.SIGPIPE, signal.SIGSEGV):
            ended = it.call(["run"], act="kill -s %d $$" % name)
            if (ended.status, ended.said) != (-name, ""):
                return "%s in the program: status %d, '%s'" % (name.name, ended.status, ended.said)
        for name in (signal.SIGTERM, signal.SIGINT, signal.SIGHUP):
            started = it.start(["run"], act="echo here; exec sleep 60")
            written_by(started).readline()
            begun = time.monotonic()
            started.send_signal(name)
            started.communicate(timeout=SECONDS)
            if started.returncode != -name or time.monotonic() - begun > 30:
                return "%s to the launcher: status %d" % (name.name, started.returncode)
        started = it.start(["run"], act="echo here; exec sleep 60", start_new_session=True)
        written_by(started).readline()
        os.killpg(started.pid, signal.SIGINT)
        started.communicate(timeout=SECONDS)
        if started.returncode != -signal.SIGINT:
            return "an interrupt to launcher and program at once: status %d" % started.returncode
        started = it.start(["run"], act="exec yes")
        written_by(started).readline()
        written_by(started).close()
        return "" if started.wait(SECONDS) == -signal.SIGPIPE else "a reader that ends: status %d" % started.returncode


def passes_streams() -> str:
    with repository() as it:
        given = bytes(range(256)) * 1000
        if it.call(["run"], given, act="cat").out != given:
            return "what comes in is not what the program reads"
        wanted = "%s dump a.xml\n" % os.path.realpath(it.folder)
        if it.call(["dump", "a.xml"], act='echo "$PWD $*"').out.decode() != wanted:
            return "folder and words are not the caller's"
        closed = it.start(["run"], stdin=None, act="cat", preexec_fn=lambda: os.close(0))
        closed.communicate(timeout=SECONDS)
        if closed.returncode != 1:
            return "a standard input that is closed: status %d" % closed.returncode
        with open("/dev/full", "wb") as full:
            ended = it.call(["run"], stdout=full, act="echo x || exit 4")
        return "" if ended.status == 4 else "a full disk: status %d" % ended.status


def on_terminal(it: Repository, words: List[str], typed: bytes, act: str) -> Tuple[str, str]:
    """What a terminal shows that is the launcher's standard input and standard error."""
    mine, theirs = pty.openpty()
    started = it.start(words, stdin=theirs, stderr=theirs, act=act, build="sleep 0.5")
    os.close(theirs)
    os.write(mine, typed)
    out = started.communicate(timeout=SECONDS)[0]
    shown = b""
    with contextlib.suppress(OSError):
        while part := os.read(mine, 4096):
            shown += part
    os.close(mine)
    return out.decode(), shown.decode()


def talks_to_a_terminal() -> str:
    try:
        for end in pty.openpty():
            os.close(end)
    except OSError as error:
        raise Skipped("/dev/ptmx", "there is no terminal to try it on: %s" % error)
    with repository(is_built=False) as it:
        out, shown = on_terminal(it, ["run"], b"frame\n\x04", "cat")
        if out != "frame\n":
            return "the program has '%s'" % out
        for part in ("\r\x1b[Kvindaesk: proving low, 0 of 2 crates done, 1 of 2 functions, 0:0", "reading the script"):
            if part not in shown:
                return "%r is not in %r" % (part, shown)
        return "a dump awaits lines" if "awaited" in on_terminal(it, ["dump", "a"], b"", "")[1] else ""


def checks() -> Checks:
    yield from named("the launcher", (
        asks_for_help, hints, example_of_help, explains, prints_version, lacks_toolchain, builds, builds_side_by_side,
        builds_within_memory, build_can_be_ended, build_goes_on_after_a_kill, lost_build_is_tried_again,
        waits_for_the_toolchain, builds_once_for_two, circle_fails, proof_fails, passes_statuses, passes_signals,
        passes_streams, talks_to_a_terminal
    ))

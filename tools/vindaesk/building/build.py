"""Proves and builds the program, for the launcher, and the library of C.

Crates are built side by side, each once those that it uses are built: by as many processes as there are processors, or
as the variable VINDAESK_JOBS says, and as many crates as fit the memory that is free, or the GB that VINDAESK_MEMORY
says. First come those that the longest chain of others waits for; processors that no other crate can use share the
proof of one. The program itself comes last, in the checkout.
"""
import contextlib
import os
import re
import signal
import subprocess
import sys
import tempfile
import time
from typing import Callable, Dict, Iterator, List, Optional, Set

from ..common import progress
from ..common.failures import Failure, NOT_BUILT
from ..common.messages import say
from ..common.places import TOP
from ..provenance.built import OUT, STAMP
from . import crates
from .build_folders import Rooms, locked
from .crates import Crate

PROGRAM = "view_tool"
BEGUN = os.path.join(OUT, "launcher.begun")
# how many processes a proof gains by
MAX_JOBS = 8
# the statuses of rt where a process was killed, as for memory: its own, a shell's, and that of Python's exit
KILLED = (-signal.SIGKILL, 128 + signal.SIGKILL, 256 - signal.SIGKILL)
# what the toolchain prints where all is well, and how many of the other lines are shown where a build fails
WELL = re.compile(r".*: proved$|(logic|statements|library|crate|axioms|so far)[: ]")
SHOWN = 40
FAR = re.compile(r"so far: (\d+ of \d+ functions)")
SECONDS = 0.05


class Interrupted(Exception):
    """A signal came."""

    def __init__(self, number: int):
        super().__init__()
        self.number = number


class Signals:
    """The signals that end a build, while it runs."""

    def __init__(self) -> None:
        self.came: List[int] = []
        found = {it: signal.getsignal(it) for it in (signal.SIGINT, signal.SIGTERM, signal.SIGHUP)}
        self.before = {it: action for it, action in found.items() if action != signal.SIG_IGN}

    def __enter__(self) -> "Signals":
        for it in self.before:
            signal.signal(it, lambda number, _: self.came.append(number))
        return self

    def __exit__(self, *_: object) -> None:
        for it, action in self.before.items():
            signal.signal(it, action)

    def pause(self) -> None:
        """Waits for a moment, and ends the build if a signal came."""
        time.sleep(SECONDS)
        for number in self.came:
            raise Interrupted(number)


class Running:
    """A crate that is being built, by how many processes, and in how many GB."""

    def __init__(self, crate: Crate, folder: str, jobs: int, memory: float):
        self.crate, self.jobs, self.memory, self.far, self.place = crate, jobs, memory, "", 0
        self.top = os.path.dirname(os.path.dirname(folder))
        words = ["run", "--jobs", str(jobs), "--", "run"] if crate.name == PROGRAM else ["lib", "--jobs", str(jobs)]
        self.log = tempfile.TemporaryFile()
        self.process = subprocess.Popen(
            ["rt", *words], cwd=folder, stdin=subprocess.DEVNULL, stdout=self.log, stderr=subprocess.STDOUT,
            start_new_session=True
        )

    def printed(self, start: int = 0) -> bytes:
        """What the toolchain has printed after that many bytes."""
        handle = self.log.fileno()
        return os.pread(handle, os.fstat(handle).st_size - start, start)

    def waits(self) -> List[str]:
        """What it waits for, where it has said so since the last call. Notes how many functions are proved, too."""
        text = self.printed(self.place)
        text = text[: text.rfind(b"\n") + 1]
        self.place += len(text)
        lines = text.decode("utf-8", "replace").splitlines()
        for found in filter(None, map(FAR.match, lines)):
            self.far = ", " + found[1]
        return [line[len("rt: ") :] for line in lines if line.startswith("rt: ") and "waiting" in line]


def number_in(path: str, pattern: str) -> Optional[int]:
    """A number of a file of the kernel, where it is there."""
    try:
        with open(path) as file:
            found = re.search(pattern, file.read(), re.M)
    except OSError:
        return None
    return int(found[1]) if found else None


def given(name: str) -> Optional[int]:
    """The number that a variable of the environment has, if it is set."""
    word = os.environ.get(name, "")
    if word and not re.fullmatch("[1-9][0-9]{0,3}", word):
        raise Failure("%s is '%s', and no number from 1 to 9999" % (name, word), NOT_BUILT)
    return int(word) if word else None


def processors() -> int:
    """How many processes may run at once."""
    return given("VINDAESK_JOBS") or len(os.sched_getaffinity(0))


def memory() -> float:
    """How many GB there are to use: most of what is free, also under a limit on a group of processes."""
    free = 1024 * (number_in("/proc/meminfo", r"^MemAvailable: +(\d+)") or 0)
    limit = number_in("/sys/fs/cgroup/memory.max", r"^(\d+)")
    if limit is not None:
        free = min(free, limit - (number_in("/sys/fs/cgroup/memory.stat", r"^anon (\d+)") or 0))
    return given("VINDAESK_MEMORY") or 0.9 * free / 1e9


class Build:
    """A build: the crates that have still to be begun, those that are being built, and those that are done."""

    def __init__(self, known: Dict[str, Crate], order: List[str], rooms: Rooms, pause: Callable[[], None]):
        self.known, self.order, self.rooms, self.pause = known, order, rooms, pause
        self.chains = crates.chains(known, order)
        self.processors, self.memory = processors(), memory()
        self.left = list(order)
        self.running: List[Running] = []
        self.done: List[str] = []
        # those that were killed once, and so are built alone
        self.killed: Set[str] = set()
        self.begun, self.line, self.shown = time.monotonic(), progress.Line(), ""

    def until(self, count: int) -> None:
        """Builds the first crates, as many as are to be done."""
        names = self.order[:count]
        while len(self.done) < count:
            self.start_ready([it for it in names if it in self.left])
            self.show()
            self.pause()
            for it in [it for it in self.running if it.process.poll() is not None]:
                self.running.remove(it)
                self.end(it)

    def start_ready(self, names: List[str]) -> None:
        """Starts crates that use none that is not done, up to as many as there are processors and memory for."""
        ready = [it for it in names if set(self.known[it].uses) <= set(self.done)]
        ready.sort(key=lambda it: -self.chains[it])
        for place, name in enumerate(ready):
            jobs = self.jobs_for(name, len(ready) - place)
            if jobs == 0:
                # those after one that waits for memory do not take what comes free
                break
            self.left.remove(name)
            self.running.append(Running(self.known[name], self.folder(name), jobs, self.needs(name, jobs)))

    def jobs_for(self, name: str, ready: int) -> int:
        """By how many processes to build a crate, the first of so many that are ready; 0 where it has to wait."""
        idle = self.processors - sum(it.jobs for it in self.running)
        has_company = bool(self.running) and bool(self.killed & {name, *(it.crate.name for it in self.running)})
        if idle <= 0 or has_company:
            return 0
        free = self.memory - sum(it.memory for it in self.running)
        most = 1 if name in self.killed else min(MAX_JOBS, self.processors, max(idle // ready, self.share(name)))
        # what needs more than there is runs with nothing beside it
        return max([it for it in range(1, most + 1) if self.needs(name, it) <= free] or [0 if self.running else 1])

    def share(self, name: str) -> int:
        """How many of the processors a crate is to have, so that the chain of those that wait for it does not come last
        of all: for a while more processes may run than there are processors."""
        rest = sum(crates.time(self.known[it]) for it in (*self.left, *(it.crate.name for it in self.running)))
        return max(1, round(self.processors * self.chains[name] / rest))

    def needs(self, name: str, jobs: int) -> float:
        """How many GB the build of a crate by as many processes takes."""
        return crates.memory(self.known, name, jobs)

    def folder(self, name: str) -> str:
        """Where a crate is built."""
        if name == PROGRAM:
            return os.path.dirname(OUT)
        return self.rooms.enter(self.known[name], [self.known[it] for it in crates.below(self.known, name)])

    def end(self, it: Running) -> None:
        """Takes the end of a build."""
        name, status = it.crate.name, it.process.returncode
        if name != PROGRAM:
            self.rooms.leave(name)
        if status == 0:
            self.done.append(name)
        elif status in KILLED and name not in self.killed:
            self.say("%s was killed, most likely for memory: once more, with nothing beside it" % name)
            self.killed.add(name)
            self.left.append(name)
        else:
            self.line.clear()
            raise failure(it)

    def stop(self) -> None:
        """Ends what is still being built. What the toolchain has kept of it stays."""
        for it in self.running:
            # one may have ended by itself
            with contextlib.suppress(ProcessLookupError):
                os.killpg(it.process.pid, signal.SIGKILL)
            it.process.wait()
        self.line.clear()

    def say(self, text: str) -> None:
        """Reports something beside the progress."""
        self.line.clear()
        say(text)

    def show(self) -> None:
        """Shows the progress: on a terminal in one line that moves, with the time, elsewhere in one line per change."""
        for text in [text for it in self.running for text in it.waits()]:
            self.say(text)
        names = ", ".join(sorted((it.crate.name for it in self.running), key=self.order.index))
        line = "proving %s, %d of %d crates done" % (names, len(self.done), len(self.order))
        if self.line.is_there:
            far = self.running[0].far if len(self.running) == 1 else ""
            self.line.show("vindaesk: %s%s, %d:%02d" % (line, far, *divmod(int(time.monotonic() - self.begun), 60)))
        elif self.running and line != self.shown:
            self.shown = line
            say(line)


def failure(it: Running) -> Failure:
    """Prints what the toolchain said of a crate whose build failed, less what went well."""
    lines = it.printed().decode("utf-8", "replace").replace(it.top, TOP).splitlines()
    lines = [line for line in lines if not WELL.match(line)]
    print(*lines[-SHOWN:], sep="\n", file=sys.stderr)
    words = "run" if it.crate.name == PROGRAM else "lib"
    folder = os.path.join(TOP, "crates", it.crate.name)
    said = "%s could not be built; to see all that the toolchain prints: cd %s && rt %s" % (it.crate.name, folder, words)
    return Failure(said, NOT_BUILT)


@contextlib.contextmanager
def ended(made: Build) -> Iterator[None]:
    """Ends what is being built where not all goes well."""
    try:
        yield
    except BaseException:
        made.stop()
        raise


def build(pause: Callable[[], None], name: str = PROGRAM) -> None:
    """Builds the program, or a library. All but the program itself is built in rooms, while the crates of the checkout
    are locked. In between `pause` is called."""
    known = crates.read(TOP)
    order = [*crates.below(known, name), name]
    rooms = Rooms(TOP)
    made = Build(known, order, rooms, pause)
    with locked([os.path.join(TOP, "crates", it) for it in order], pause), rooms, ended(made):
        made.until(len(order) - (name == PROGRAM))
    with ended(made):
        made.until(len(order))
    made.say("all %d crates are proved, and %s is built" % (len(order), "the program" if name == PROGRAM else name))


@contextlib.contextmanager
def noted() -> Iterator[None]:
    """Notes when a build began that went well, so that it is known which sources are newer."""
    os.makedirs(OUT, exist_ok=True)
    with open(BEGUN, "w"):
        pass
    try:
        yield
        os.replace(BEGUN, STAMP)
    finally:
        if os.path.exists(BEGUN):
            os.unlink(BEGUN)


@contextlib.contextmanager
def interruptible() -> Iterator[Signals]:
    """A signal that ends what is done here ends the process."""
    try:
        with Signals() as signals:
            yield signals
    except Interrupted as it:
        signal.signal(it.number, signal.SIG_DFL)
        os.kill(os.getpid(), it.number)


def run() -> None:
    """Builds the program; a signal that ends this ends the process."""
    with interruptible() as signals, noted():
        build(signals.pause)
        if not os.access(os.path.join(OUT, PROGRAM), os.X_OK):
            raise Failure("rt run left no program at %s" % os.path.join(OUT, PROGRAM), NOT_BUILT)


def run_for(library: str) -> None:
    """Builds a library; a signal that ends this ends the process."""
    with interruptible() as signals:
        build(signals.pause, library)

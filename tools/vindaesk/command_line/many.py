"""A call over many scripts: which they are, where the outcome of each goes, and how each ends.

A script is named, or found in a folder that is named, or in the folders in it. A script that fails stops no other: what
there is to say of it is said, the others go on, and the status is 1 at the end.
"""
import argparse
import contextlib
import io
import math
import os
import sys
from typing import Callable, Dict, Generator, Iterator, List, NamedTuple, Sequence, Set, Tuple

from ..common import failures, files, progress
from ..common.failures import Failure
from ..common.messages import say
from . import arguments

SCRIPTS = (".script",)
STACKS = (".stack",)
# how the outcome of standard input is called in a folder
STDIN = "stdin"


class Input(NamedTuple):
    """A script of a call: its path, or `-`; its path below the folder that was named, without an ending, by which its
    outcome is named; and its place among all, from 0."""

    path: str
    stem: str
    place: int = 0


class Outcome(NamedTuple):
    """How a script ended: the status, whether a failure ended it, and what it wrote on both streams."""

    status: int
    is_failed: bool
    written: bytes
    said: str


# carries out a call over one script, and returns the status
Work = Callable[[Input], int]


def add(found: argparse.ArgumentParser, out: str = "") -> None:
    """The arguments of a tool that takes many scripts. `out` is what --out DIR gets of each; without it there is
    none."""
    found.add_argument("scripts", metavar="SCRIPT", nargs="+",
                       help="a script, - for standard input, or a folder: the scripts in it and in those below")
    arguments.add_of_script(found)
    if out:
        found.add_argument("--out", metavar="DIR", dest="out_folder", help="writes %s" % out)
    found.add_argument("--jobs", metavar="N", type=arguments.count(1, 512), default=os.cpu_count() or 1,
                       help="of many scripts, how many at once; as many as there are processors")
    found.add_argument("--quiet", action="store_true", help="of many scripts, shows no progress and no sum")


def is_many(given: argparse.Namespace) -> bool:
    """Whether a call is one over many scripts, and not over a single one."""
    return len(given.scripts) > 1 or bool(getattr(given, "out_folder", None)) or os.path.isdir(given.scripts[0])


def one(given: argparse.Namespace, path: str) -> argparse.Namespace:
    """The arguments of the same call over a single script."""
    return argparse.Namespace(**{**vars(given), "script": path})


def take_out(given: argparse.Namespace, parser: argparse.ArgumentParser) -> None:
    """Of `SCRIPT OUT` the second word is a file to write, and no script; many scripts need a folder for that."""
    last = given.scripts[-1]
    if given.out_folder is None and len(given.scripts) == 2 and not last.endswith(SCRIPTS + STACKS):
        given.out = given.scripts.pop()
    elif not (given.out_folder or given.expanded or getattr(given, "frames_folder", None)) and is_many(given):
        parser.error("many scripts need --out DIR")


def check_options(given: argparse.Namespace, parser: argparse.ArgumentParser) -> None:
    """What is for a single script alone."""
    if is_many(given) and given.expanded:
        parser.error("--expanded takes a single script")
    if is_many(given) and getattr(given, "out", None):
        parser.error("many scripts need --out DIR")


# which scripts


def inputs(words: Sequence[str], endings: Tuple[str, ...] = SCRIPTS) -> List[Input]:
    """The scripts that words name, each once; in folders those with some endings, by their names. A path that is not
    there, and a folder without a script, is a failure before anything is done."""
    found: Dict[str, Input] = {}
    for word in words:
        for path, stem in named_by(word, endings):
            found.setdefault("-" if path == "-" else os.path.abspath(path), Input(path, stem))
    return [it._replace(place=place) for place, it in enumerate(found.values())]


def named_by(word: str, endings: Tuple[str, ...]) -> Iterator[Tuple[str, str]]:
    """The path of each script that a word names, and its path below the folder that was named."""
    if word == "-":
        yield word, STDIN
    elif not os.path.isdir(word):
        if not os.path.lexists(word):
            raise Failure("%s cannot be read: No such file or directory" % word, failures.NOT_RUN)
        yield word, os.path.splitext(os.path.basename(word))[0]
    else:
        paths = list(below(word, endings, set()))
        if not paths:
            raise Failure("there is no %s in %s" % (" or ".join("*" + it for it in endings), word), failures.NOT_RUN)
        for path in paths:
            yield path, os.path.splitext(os.path.relpath(path, word))[0]


def below(folder: str, endings: Tuple[str, ...], around: Set[str]) -> Iterator[str]:
    """The scripts of a folder and of those in it, by their names. Links to folders are followed, except to one that is
    around them."""
    own = os.path.realpath(folder)
    if own in around:
        return
    try:
        names = sorted(os.listdir(folder))
    except OSError as error:
        raise Failure("%s cannot be read: %s" % (folder, error.strerror), failures.NOT_RUN)
    for name in names:
        path = os.path.join(folder, name)
        if os.path.isdir(path):
            yield from below(path, endings, around | {own})
        elif name.endswith(endings):
            yield path


# where the outcome of each goes


def place_of(folder: str, it: Input, ending: str) -> str:
    """Where the outcome of a script goes, without a configuration."""
    return os.path.join(folder, it.stem + ending)


def places_of(given: argparse.Namespace, it: Input, path: str) -> List[str]:
    """Where the outcomes of a script go, of which `path` is the one without a configuration."""
    try:
        return [arguments.out_of(path, name, given) for name in arguments.configurations_of(one(given, it.path))]
    except Failure:
        # the script itself fails by that
        return []


def check_places(given: argparse.Namespace, found: Sequence[Input], folder: str, ending: str) -> None:
    """Two scripts with one outcome, and a folder that is none, are failures before anything is written."""
    taken: Dict[str, Input] = {}
    for it, path in ((it, path) for it in found for path in places_of(given, it, place_of(folder, it, ending))):
        other = taken.setdefault(os.path.normpath(path), it)
        if other != it:
            why = "%s and %s would both be written as %s; name the folder around them, or make two calls"
            raise Failure(why % (files.named(other.path), files.named(it.path), path), failures.NOT_RUN)
    if os.path.lexists(folder) and not os.path.isdir(folder):
        raise Failure("%s cannot be written: it is no folder" % folder, failures.NOT_RUN)


def write(path: str, body: bytes) -> None:
    """Writes an outcome, in a folder that is made where it is not there."""
    folder = os.path.dirname(path)
    try:
        os.makedirs(folder or ".", exist_ok=True)
    except OSError as error:
        raise Failure("%s cannot be made: %s" % (folder, error.strerror), failures.NOT_RUN)
    files.replace(path, body)


# how each ends


def tried(work: Work, it: Input) -> Outcome:
    """Carries out work over a script, and keeps what it writes and says."""
    before = sys.stdout, sys.stderr
    written, said = io.BytesIO(), io.BytesIO()
    sys.stdout, sys.stderr = (io.TextIOWrapper(to, "utf-8", "backslashreplace") for to in (written, said))
    is_failed = True
    try:
        status = work(it)
        is_failed = False
    except Failure as failure:
        status = failure.status
        say(in_words(it, str(failure)))
    except MemoryError:
        status = failures.NO_MEMORY
        say(in_words(it, "out of memory"))
    except OSError as error:
        status = failures.NOT_RUN
        say(in_words(it, "%s: %s" % (error.filename or "standard output", error.strerror or error)))
    finally:
        for stream in (sys.stdout, sys.stderr):
            # the bytes stay, which end with a stream otherwise
            stream.detach()
        sys.stdout, sys.stderr = before
    return Outcome(status, is_failed, written.getvalue(), said.getvalue().decode())


def in_words(it: Input, why: str) -> str:
    """Why a script failed, with its name before it."""
    name = files.named(it.path)
    return why if why.startswith((name + ":", name + " ")) else "%s: %s" % (name, why)


def outcomes(work: Work, found: Sequence[Input], jobs: int) -> Generator[Tuple[int, Outcome], None, None]:
    """How each script ends, as they end."""
    if min(jobs, len(found)) < 2:
        for place, it in enumerate(found):
            yield place, tried(work, it)
        return
    # loaded where there are many, since that takes as long as a small script
    from ..common import pool

    # processes have no standard input
    yield from ((it.place, tried(work, it)) for it in found if it.path == "-")
    others = [it for it in found if it.path != "-"]
    processes = pool.Pool(lambda it: tried(work, it), jobs, math.inf)
    with contextlib.closing(processes.results(others)) as each:
        for place, result in each:
            it = others[place]
            yield it.place, lost(it, result.why) if isinstance(result, pool.Lost) else result


def lost(it: Input, why: str) -> Outcome:
    """How a script ended whose processes died."""
    name = os.path.basename(sys.argv[0])
    return Outcome(failures.WRONG, True, b"", "%s: %s\n" % (name, in_words(it, why)))


def show(outcome: Outcome) -> None:
    """Writes what a script wrote and said, in the place of a line of progress."""
    if outcome.written or outcome.said:
        progress.clear()
    if outcome.said:
        sys.stderr.write(outcome.said)
        sys.stderr.flush()
    if outcome.written:
        files.write("-", outcome.written)


def new_lines(written: bytes, before: Set[bytes]) -> bytes:
    """The lines that were not written before, as they were for a file that several scripts include."""
    found = [line for line in dict.fromkeys(written.splitlines(True)) if line not in before]
    before.update(found)
    return b"".join(found)


def run(work: Work, found: Sequence[Input], given: argparse.Namespace, wrong: str = "with refused lines",
        is_once: bool = False) -> int:
    """Carries out work over scripts, and writes how each ends, in their order; each line once, if that is asked for.
    Returns the status: 0, or 1 where one of them is another. `wrong` says what the status 1 means of scripts."""
    sys.stdout.flush()
    ended: List[Outcome] = []
    before: Set[bytes] = set()
    waiting: Dict[int, Outcome] = {}
    with contextlib.closing(outcomes(work, found, given.jobs)) as each:
        for place, outcome in each if given.quiet else progress.counted(each, len(found), "scripts"):
            waiting[place] = outcome
            while len(ended) in waiting:
                it = waiting.pop(len(ended))
                show(it._replace(written=new_lines(it.written, before)) if is_once else it)
                ended.append(it._replace(written=b"", said=""))
    failed, others = sum(it.is_failed for it in ended), sum(it.status != 0 and not it.is_failed for it in ended)
    if not given.quiet and failed + others:
        sums = ["%d %s" % pair for pair in ((failed, "failed"), (others, wrong)) if pair[0]]
        say("%d script%s: %s" % (len(ended), "s"[len(ended) == 1 :], ", ".join(sums)))
    return failures.WRONG if any(it.status for it in ended) else 0


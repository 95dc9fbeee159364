"""The release in dist/: whole, of these sources where it has to be, and the same as the program that was built here.

Called by itself it prints what is wrong, in the repository that it is in. On small repositories with a stand-in for the
toolchain, ci/release and the launcher are tried too: a byte that is changed in the program, or in a source, is found.
"""
import contextlib
import os
import re
import shutil
import subprocess
import sys
import time
from typing import Any, Callable, Iterator, Tuple

import launcher
from running import SECONDS, TOP
from vindaesk.common import places
from vindaesk.provenance import built, dist
from vindaesk.provenance.git import lines as lines_of_git
from vindaesk.provenance.sources import Listing

WORDS = ["version", "date", "kit", "commit", "tree", "blob", "sources", "ci"]
LOG = "rt: low proved\nrt: ok; handles allowed: none; every proof was done in this run\n2 passed, 0 failed\n"


def is_whole() -> str:
    """dist/ has all its files, with their checksums, and the version that VERSION has."""
    if not os.path.exists(dist.PROVENANCE):
        return "there is no dist/PROVENANCE: ci/release makes it"
    if list(dist.read()) != WORDS:
        return "dist/PROVENANCE has the words %s" % " ".join(dist.read())
    if "vindaesk " + dist.read()["version"][0] != places.version():
        return "it is of version %s, and VERSION has another one: ci/release renews it" % dist.read()["version"][0]
    return dist.fault()


def is_what_is_built() -> str:
    """Where the sources are those of dist/, the program that was built of them is the same."""
    listing = Listing()
    if not dist.is_of(listing) or not built.is_up_to_date(listing):
        return ""
    pair = []
    for path in (built.PROGRAM, dist.PROGRAM):
        with open(path, "rb") as file:
            pair.append(file.read())
    if pair[0] == pair[1]:
        return ""
    place = next((k for k, (one, other) in enumerate(zip(*pair)) if one != other), min(map(len, pair)))
    return "what was built here differs from dist/view_tool at byte %d, though the sources are the same" % place


def is_of_new_version() -> str:
    """At a commit that raises VERSION, dist/ is of its sources."""
    texts = [lines_of_git("show", commit + ":VERSION") for commit in ("HEAD", "HEAD^")]
    if None in texts or texts[0] == texts[1] or dist.is_of(Listing()):
        return ""
    return "this commit raises VERSION, and dist/ is of other sources: ci/release renews it"


OWN = (is_whole, is_what_is_built, is_of_new_version)


def git(folder: str, *words: str) -> None:
    """Calls git in a small repository."""
    own = ["-c", "user.name=a", "-c", "user.email=a@example.com", "-c", "init.defaultBranch=main"]
    subprocess.run(["git", *own, *words], cwd=folder, check=True, stdout=subprocess.DEVNULL, stderr=subprocess.DEVNULL)


def put(path: str, text: str) -> None:
    """Writes a file."""
    with open(path, "w") as file:
        file.write(text)


def edit(path: str, change: Callable[[bytes], bytes]) -> None:
    """Changes the bytes of a file, which keeps its time."""
    found = os.stat(path)
    with open(path, "r+b") as file:
        text = file.read()
        file.seek(0)
        file.write(change(text))
        file.truncate()
    os.utime(path, ns=(found.st_atime_ns, found.st_mtime_ns))


def one_byte_other(text: bytes) -> bytes:
    """A text whose last byte is another one."""
    return text[:-1] + bytes([text[-1] ^ 1])


class Release:
    """A small repository whose program is built, and that has a dist/ of its sources unless ci/release refuses."""

    def __init__(self, repository: launcher.Repository):
        self.repository, self.folder = repository, repository.folder
        self.dist, self.built = self.path("dist", "view_tool"), self.path("crates", "view_tool", "out", "view_tool")
        self.source = self.path("crates", "low", "src", "lib.rt")
        shutil.copytree(os.path.join(TOP, "ci"), self.path("ci"), ignore=shutil.ignore_patterns("__pycache__", "out"))
        put(self.source, "// low\n")
        put(self.path(".gitignore"), "out/\n/calls\n/log\n/kit/\n/temporary/\n__pycache__/\n")
        os.utime(self.built)
        git(self.folder, "init")
        self.commit()
        put(self.path("log"), LOG)

    def path(self, *names: str) -> str:
        """A path in the repository."""
        return os.path.join(self.folder, *names)

    def commit(self) -> None:
        """Commits all."""
        git(self.folder, "add", "-A")
        git(self.folder, "commit", "-m", "all")

    def script(self, *words: str) -> Tuple[int, str]:
        """Status and output of a script of ci/, on a machine that has the stand-in for the toolchain."""
        kept = {name: value for name, value in os.environ.items() if not name.startswith("VINDAESK_")}
        ended = subprocess.run(
            [sys.executable, *words], cwd=self.folder, timeout=SECONDS,
            stdout=subprocess.PIPE, stderr=subprocess.STDOUT,
            env={**kept, "PATH": "%s:%s" % (self.path("kit"), os.environ["PATH"]), "SOURCE_DATE_EPOCH": "86400"}
        )
        return ended.returncode, ended.stdout.decode()

    def printed(self, *words: str) -> str:
        """What a command prints there."""
        return subprocess.run(words, cwd=self.folder, stdout=subprocess.PIPE).stdout.decode()

    def release(self, *options: str) -> str:
        """Calls ci/release, and returns what goes wrong."""
        status, said = self.script("ci/release", *options, "log")
        return said if status else ""

    def wrong(self) -> str:
        """What the checks of this file say of the repository."""
        return self.script("ci/release_checks.py")[1]

    def runs(self, *words: str, has_toolchain: bool = False, **how: Any) -> Tuple[str, int, str]:
        """Which program the launcher runs, its status, and what it says."""
        ended = self.repository.call([*words, "run"], has_toolchain=has_toolchain, act='echo "$0"', **how)
        path = ended.out.decode().strip()
        return os.path.relpath(path, os.path.realpath(self.folder)) if path else "", ended.status, ended.said

    def forget_builds(self) -> None:
        """Removes what was built."""
        for name in ("low", "view_tool"):
            shutil.rmtree(self.path("crates", name, "out"), ignore_errors=True)


@contextlib.contextmanager
def release(is_made: bool = True) -> Iterator[Release]:
    """A small repository with a dist/."""
    with launcher.repository() as repository:
        made = Release(repository)
        if is_made:
            why = made.release()
            if why:
                raise RuntimeError("ci/release: " + why)
        yield made


DIST, BUILT = os.path.join("dist", "view_tool"), os.path.join("crates", "view_tool", "out", "view_tool")


def says_of_which_sources() -> str:
    """PROVENANCE as ci/release writes it: its ids are those of git, the checksum that of the command in the docs."""
    with release() as it:
        found = dict(line.split(" ", 1) for line in it.repository.read("dist/PROVENANCE").splitlines()[:4])
        if (found["version"], found["date"], found["kit"]) != ("1.2.3", "1970-01-02", "kit of the checks"):
            return "it is %s" % found
        ids = it.printed("git", "rev-parse", "HEAD:crates", "HEAD:crates.txt", "HEAD:HANDLES").split()
        sums = it.printed("bash", "-c", command_of_sources())
        rest = ["tree crates " + ids[0], "blob crates.txt " + ids[1], "blob HANDLES " + ids[2],
                "sources " + sums.split(" ")[0], *("ci " + line for line in LOG.splitlines()[1:])]
        lines = it.repository.read("dist/PROVENANCE").splitlines()[4:]
        if lines != rest:
            return "after the commit it has %s in place of %s" % (lines, rest)
        fits = subprocess.run(["sha256sum", "-c", "SHA256SUMS"], cwd=it.path("dist"), stdout=subprocess.DEVNULL)
        return it.wrong() or ("sha256sum refuses SHA256SUMS" if fits.returncode else "")


def command_of_sources() -> str:
    """The command by which the docs say how the checksum over the sources is made."""
    with open(os.path.join(TOP, "docs", "INSTALL.md"), encoding="utf-8") as file:
        found = re.search(r"`(find crates crates.txt HANDLES [^`]*)`", file.read())
    return found[1] if found else "exit 1"


def refuses() -> str:
    """Each reason for which ci/release refuses."""
    with release(is_made=False) as it:
        put(it.path("log"), LOG.replace("0 failed", "1 failed"))
        said = [it.release()]
        put(it.path("log"), LOG)
        os.utime(it.path("log"), (0, 0))
        said.append(it.release())
        os.utime(it.path("log"))
        put(it.path("crates", "low", "src", "other.rt"), "")
        said.append(it.release())
        it.commit()
        said.append(it.release())
        it.forget_builds()
        said.append(it.release())
        put(it.path(".git", "info", "exclude"), "other\n")
        put(it.path("crates", "low", "src", "other"), "")
        said.append(it.release())
        wanted = ["'N passed, 0 failed'", "after the log", "not all is committed", "older than a source",
                  "no program at", "git passes it over"]
        for text, part in zip(said, wanted):
            if part not in text:
                return "in place of '%s' it says '%s'" % (part, text)
        return "dist/ is there" if os.path.exists(it.path("dist")) else ""


def takes_proofs_alone() -> str:
    """A run that has proved each crate and has not tried each edit that must fail; one that lacks a crate is refused."""
    with release(is_made=False) as it:
        put(it.path("log"), "rt: low proved\nrt: low: trying its must-fail edits (3)\n")
        said = it.release("--proofs")
        if "view_tool" not in said:
            return "of a crate that is not proved it says '%s'" % said
        put(it.path("log"), "rt: low proved\nrt: view_tool is kept: an earlier run\n")
        said = it.release("--proofs")
        lines = it.repository.read("dist/PROVENANCE").splitlines() if not said else []
        wanted = "ci proofs of all 2 crates; the gate tries the edits that must fail"
        return said or ("" if lines[-1] == wanted else "PROVENANCE ends with '%s'" % lines[-1])


def runs_at_once() -> str:
    """The launcher runs the program of dist/ without a toolchain; also without git, by a link, and where nothing can be
    written."""
    with release() as it:
        it.forget_builds()
        if it.runs() != (DIST, 0, ""):
            return "at first it runs %s" % (it.runs(),)
        os.rename(it.path(".git"), it.path("no-git"))
        shutil.rmtree(it.path("out"), ignore_errors=True)
        put(it.path("out"), "")
        os.makedirs(it.path("a folder"))
        os.symlink(it.path("vindaesk"), it.path("a folder", "v"))
        ended = subprocess.run([it.path("a folder", "v"), "run"], env={"PATH": "/usr/bin:/bin", "ACT": 'echo "$0"'},
                               stdin=subprocess.DEVNULL, stdout=subprocess.PIPE, stderr=subprocess.STDOUT, cwd="/")
        wanted = os.path.realpath(it.dist).encode() + b"\n"
        return "" if ended.stdout == wanted else "by a link, without git and without out/: %r" % ended.stdout


def finds_another_program() -> str:
    """A byte of the program of dist/ is changed: the launcher, a tool and the check say so."""
    with release() as it:
        time.sleep(2.1)
        it.runs()
        if not it.repository.has("out/dist"):
            return "that dist/ is whole is not kept"
        edit(it.dist, one_byte_other)
        path, status, said = it.runs()
        if (path, status) != ("", 126) or "dist/view_tool has not the checksum" not in said or said.count("\n") != 1:
            return "status %d, '%s'" % (status, said)
        put(it.path("a.script"), "window 9 9\n")
        _, said = it.script("tools/tree", "a.script")
        if "dist/view_tool has not the checksum" not in said or "dist/view_tool has not the checksum" not in it.wrong():
            return "a tool says '%s', and the check '%s'" % (said, it.wrong())
        return "" if it.runs("--prove") == (BUILT, 0, "") else "--prove runs %s" % (it.runs("--prove"),)


def finds_another_source() -> str:
    """A byte of a source is changed, and its time is not: the launcher says which one, and builds."""
    with release() as it:
        it.forget_builds()
        time.sleep(2.1)
        it.runs()
        with open(it.path("out", "sources"), "rb") as file:
            if "sources %s" % file.readline().decode() not in it.repository.read("dist/PROVENANCE"):
                return "the checksum over the sources is not kept"
        edit(it.source, one_byte_other)
        path, status, said = it.runs()
        why = "vindaesk: sources differ from those of dist/ (crates/low/src/lib.rt)\n"
        if (path, status) != ("", 126) or not said.startswith(why) or "the command rt" not in said:
            return "without a toolchain: status %d, '%s'" % (status, said)
        path, status, said = it.runs(has_toolchain=True)
        if (path, status) != (BUILT, 0) or not said.startswith(why):
            return "with a toolchain: status %d, '%s'" % (status, said)
        if it.runs() != (BUILT, 0, ""):
            return "after the build: %s" % (it.runs(),)
        edit(it.source, one_byte_other)
        return it.wrong() if it.runs() == (DIST, 0, "") else "after the change is taken back: %s" % (it.runs(),)


def proves_where_it_is_asked() -> str:
    """--prove, and the variable, pass dist/ over."""
    with release() as it:
        it.forget_builds()
        path, status, said = it.runs("--prove", has_toolchain=True)
        if (path, status) != (BUILT, 0) or "proving" not in said or "dist/" in said:
            return "--prove runs %s: status %d, '%s'" % (path, status, said)
        if it.runs() != (DIST, 0, ""):
            return "without it: %s" % (it.runs(),)
        ended = subprocess.run(
            [it.path("vindaesk"), "run"], env={"PATH": "/usr/bin:/bin", "ACT": 'echo "$0"', "VINDAESK_PROVE": "1"},
            stdin=subprocess.DEVNULL, stdout=subprocess.PIPE
        )
        return "" if ended.stdout.decode().strip().endswith(BUILT) else "with the variable: %r" % ended.stdout


def finds_another_build() -> str:
    """What was built here differs, though the sources are those of dist/."""
    with release() as it:
        edit(it.built, lambda text: text + b" ")
        return "" if "differs from dist/view_tool at byte" in it.wrong() else "it says '%s'" % it.wrong()


def finds_an_old_release() -> str:
    """VERSION is raised and dist/ is not renewed, or renewed with other sources."""
    with release() as it:
        it.commit()
        put(it.path("VERSION"), "1.2.4\n")
        put(it.source, "// lower\n")
        it.commit()
        said = it.wrong()
        for part in ("it is of version 1.2.3", "dist/ is of other sources"):
            if part not in said:
                return "'%s' is not in '%s'" % (part, said)
        os.utime(it.built)
        os.utime(it.path("log"))
        return it.release() or it.wrong()


def checks() -> Iterator[Tuple[str, Callable[[], str]]]:
    """The checks of this file."""
    for check in OWN:
        yield "release: " + check.__name__.replace("_", " "), check
    for check in (says_of_which_sources, takes_proofs_alone, refuses, runs_at_once, finds_another_program,
                  finds_another_source, proves_where_it_is_asked, finds_another_build, finds_an_old_release):
        yield "release: " + check.__name__.replace("_", " "), check


if __name__ == "__main__":
    for problem in filter(None, (check() for check in OWN)):
        print(problem)

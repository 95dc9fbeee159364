"""Calls in this process: which of them are made there, and that a long one is given up and left to the program."""
import os
import subprocess
import sys
import threading
import time
from typing import Iterator, Optional

import pytest

from vindaesk.common.failures import Failure
from vindaesk.program import in_process, native, process

SCRIPT = b"window 9 9\nadd root View 4 3\nframe\nbounds\n"
ANSWER = (b"by the library\n", 0)


class Stand:
    """A library that answers once it may."""

    def __init__(self) -> None:
        self.may, self.status = threading.Event(), 0
        self.may.set()
        self.files: Optional[native.Files] = None

    def run(self, script: bytes, files: native.Files) -> native.Answer:
        self.files = files
        self.may.wait(30)
        return ANSWER[0], self.status


@pytest.fixture
def library(monkeypatch: pytest.MonkeyPatch) -> Iterator[Stand]:
    """A stand-in for the library, in a process in which nothing was called yet."""
    stand = Stand()
    monkeypatch.setattr(native, "path", lambda: "a library")
    monkeypatch.setattr(native, "loaded", lambda _: stand)
    monkeypatch.setattr(in_process, "WORKERS", in_process.Workers())
    monkeypatch.setattr(in_process, "PATIENCE", 0.2)
    yield stand
    stand.may.set()


def test_calls_are_made_by_few_threads(library: Stand) -> None:
    before = threading.active_count()
    assert [in_process.answered(["run"], SCRIPT, "/") for _ in range(50)] == [ANSWER] * 50
    assert threading.active_count() == before + 1


def test_the_program_is_run_where_a_call_takes_long(library: Stand) -> None:
    library.may.clear()
    begun = time.monotonic()
    assert in_process.answered(["run"], SCRIPT, "/") is None
    assert time.monotonic() - begun < 5
    library.may.set()
    assert in_process.answered(["run"], SCRIPT, "/") is None
    assert process.ran(["run"], SCRIPT, "/") == (b"v1\nsettled 0\nv1 0 0 4 3\n", 0)


def test_what_is_left_to_the_program(library: Stand, tmp_path: str) -> None:
    os.mkdir(os.path.join(tmp_path, "folder.xml"))
    os.mkfifo(os.path.join(tmp_path, "pipe.xml"))
    assert in_process.answered(["run"], b"#" * (in_process.MAX_SCRIPT + 1), "/") is None
    assert in_process.answered(["gen", "1"], b"", "/") is None
    assert in_process.answered(["run", "it"], SCRIPT, "/") is None
    for name in (b"folder.xml", b"pipe.xml"):
        assert in_process.answered(["run"], b"inflate " + name + b"\n", str(tmp_path)) is None
    library.status = 5
    assert in_process.answered(["run"], SCRIPT, "/") is None


def test_files_of_a_script(library: Stand, tmp_path: str) -> None:
    with open(os.path.join(tmp_path, "a.xml"), "wb") as file:
        file.write(b"a")
    script = b"inflate a.xml\ninflate  a.xml into v1\ninflate lacking.xml\n"
    assert in_process.answered(["run"], script, str(tmp_path)) == ANSWER
    assert library.files == {b"a.xml": b"a"}


def test_a_fork_leaves_all_to_the_program() -> None:
    workers = in_process.Workers()
    workers.forked()
    assert not workers.is_closed
    assert workers.answered(lambda: ANSWER) == ANSWER
    workers.forked()
    assert workers.is_closed


def test_ctrl_c_ends_a_call(library: Stand) -> None:
    """A tool that is in a call ends at once."""
    code = """import os, signal, sys, threading
from vindaesk.program import in_process
threading.Timer(0.5, lambda: os.kill(os.getpid(), signal.SIGINT)).start()
in_process.PATIENCE = 60
try:
    in_process.Workers().answered(threading.Event().wait)
except KeyboardInterrupt:
    sys.exit(77)"""
    ended = subprocess.run([sys.executable, "-c", code], env={**os.environ, "PYTHONPATH": os.pathsep.join(sys.path)},
                           timeout=30)
    assert ended.returncode == 77


def test_which_library(monkeypatch: pytest.MonkeyPatch) -> None:
    monkeypatch.setenv(native.VARIABLE, native.NONE)
    assert native.path() is None
    with pytest.raises(Failure, match="there is no library"):
        native.library()
    monkeypatch.setenv(native.VARIABLE, "/nowhere/lib.so")
    with pytest.raises(Failure, match="/nowhere/lib.so can't be loaded"):
        native.library()

"""The one place from which a case calls the program: its output is read up to a limit, and it may take some seconds."""
import os
import select
import subprocess
import time
from typing import List, NamedTuple, Optional, Tuple

from ..program import process

PIECE = 1 << 16


class Call(NamedTuple):
    """A call of the program: its words, what is on its standard input, and the folder of the files that it reads."""

    words: List[str]
    given: bytes
    folder: str


class Limits(NamedTuple):
    """How many seconds a call may take, and how many bytes it may write."""

    seconds: float
    size: int


class Slow(Exception):
    """A call takes more seconds than it may."""


class Long(Exception):
    """A call writes more bytes than it may."""


def answered(call: Call, limits: Limits) -> Tuple[bytes, int]:
    """What the program writes, and its status: below 0 for a signal. It has ended when this returns or raises."""
    given = os.memfd_create("given")
    try:
        with open(given, "wb", closefd=False) as file:
            file.write(call.given)
        os.lseek(given, 0, os.SEEK_SET)
        started = subprocess.Popen([process.path(), *call.words], stdin=given, stdout=subprocess.PIPE,
                                   stderr=subprocess.DEVNULL, cwd=call.folder)
    finally:
        os.close(given)
    try:
        return read_to_end(started, limits)
    finally:
        started.kill()
        started.wait()
        assert started.stdout is not None
        started.stdout.close()


def read_to_end(started: "subprocess.Popen[bytes]", limits: Limits) -> Tuple[bytes, int]:
    """What a program that has been started writes, and its status."""
    assert started.stdout is not None
    output, until = started.stdout.fileno(), time.monotonic() + limits.seconds
    ready = select.poll()
    ready.register(output, select.POLLIN)
    parts: List[bytes] = []
    size = 0
    while True:
        if not ready.poll(max(0, until - time.monotonic()) * 1000):
            raise Slow
        part = os.read(output, PIECE)
        parts.append(part)
        size += len(part)
        if size > limits.size:
            raise Long
        if not part:
            return b"".join(parts), ended(started, until)


def ended(started: "subprocess.Popen[bytes]", until: float) -> int:
    """The status of a program that writes no more, which may go on up to a time."""
    left: Optional[float] = max(0, until - time.monotonic())
    try:
        return started.wait(left)
    except subprocess.TimeoutExpired:
        raise Slow

"""The program over two pipes: lines go in, and the replies of each come out within a time limit.

What was carried out is kept as a script, `journal`, in which a refused line is a comment."""
import os
import re
import select
import subprocess
import time
from collections import deque
from typing import Deque, List

from ..common.failures import Failure
from ..program import process
from ..program.statuses import MAX_SCRIPT
from ..scripts.names import Ids
from ..scripts.script import MAX_LINE
from . import checked
from .errors import LineRefused, NoAnswer, NoRoom

# always refused, so that its refusal ends the replies of the line before
MARK = b"?\n"
REFUSED = re.compile(r"line [1-9][0-9]*: refused ([0-9]+) ([A-Za-z]+)(.*)", re.DOTALL)
# how much is read at once, and how long the program may take to end, in seconds
PIECE = 65536
PATIENCE = 10


class Channel:
    """One program of the form `run` or `stack`. Each answer may take some seconds."""

    def __init__(self, form: str, folder: str, ids: Ids, seconds: float):
        """Starts the program in a folder."""
        checked.seconds(seconds)
        checked.folder(folder)
        self._ids = ids
        self._seconds = seconds
        self._process = subprocess.Popen(
            [process.path(), form],
            stdin=subprocess.PIPE,
            stdout=subprocess.PIPE,
            stderr=subprocess.DEVNULL,
            cwd=folder,
            bufsize=0,
        )
        assert self._process.stdin is not None and self._process.stdout is not None
        self._into, self._out = self._process.stdin.fileno(), self._process.stdout.fileno()
        os.set_blocking(self._into, False)
        self._has_answer, self._has_space = select.poll(), select.poll()
        self._has_answer.register(self._out, select.POLLIN)
        self._has_space.register(self._into, select.POLLOUT)
        self._lines: Deque[bytes] = deque()
        self._begun = b""
        self._count = 0
        self._asked, self._until = b"", 0.0
        self.is_open = True
        # how many bytes the program was sent, with those that end replies, and how many it reads
        self.sent, self.limit = 0, MAX_SCRIPT
        # why no other program took over, where that was tried
        self.why_full = ""
        self.journal = bytearray()

    @property
    def left(self) -> int:
        """How many more bytes the program reads."""
        return self.limit - self.sent

    def close(self) -> None:
        """Ends the program; a second call does nothing."""
        self.is_open = False
        for stream in (self._process.stdin, self._process.stdout):
            if stream is not None:
                stream.close()
        try:
            self._process.wait(PATIENCE)
        except subprocess.TimeoutExpired:
            self._process.kill()
            self._process.wait()

    def kill(self) -> None:
        """Ends the program at once. Another thread may do so while one waits for an answer, which is a Failure then."""
        self._process.kill()

    def single(self, line: bytes) -> List[bytes]:
        """Carries out a line that has one reply."""
        text = line + b"\n"
        self._check(line, text)
        try:
            self._send(line, text, 1)
            reply = self._next()
        except BaseException:
            self._give_up()
            raise
        if reply.startswith(b"line "):
            raise self._refusal(line, reply)
        self.journal += text
        return [reply]

    def until_mark(self, line: bytes) -> List[bytes]:
        """Carries out a line with any number of replies."""
        text = b"%s\n%s" % (line, MARK)
        self._check(line, text)
        try:
            self._send(line, text, 2)
            own, mark = b"line %d: " % (self._count - 1), b"line %d: " % self._count
            replies: List[bytes] = []
            reply = self._next()
            while not reply.startswith(mark):
                replies.append(reply)
                reply = self._next()
        except BaseException:
            self._give_up()
            raise
        if replies and replies[-1].startswith(own):
            raise self._refusal(line, replies[-1])
        self.journal += line + b"\n"
        return replies

    def together(self, line: bytes, count: int) -> List[bytes]:
        """Carries out a line that has one reply a number of times, which are asked for at once. Where one is refused
        the others are too."""
        text = (line + b"\n") * count
        self._check(line, text)
        try:
            self._send(line, text, count)
            replies = []
            for _ in range(count):
                replies.append(self._next())
                self._until = time.monotonic() + self._seconds
        except BaseException:
            self._give_up()
            raise
        if replies[-1].startswith(b"line "):
            raise self._refusal(line, replies[-1])
        self.journal += text
        return replies

    def _check(self, line: bytes, text: bytes) -> None:
        """Whether a text may be sent."""
        if not self.is_open:
            raise ValueError("the session is closed")
        if self.sent + len(text) > self.limit:
            why = "the program reads %d bytes and has %d left, and this line takes %d: %s" % (
                self.limit,
                self.left,
                len(text),
                self.shown(line),
            )
            raise NoRoom("%s; no new program took over, since %s" % (why, self.why_full) if self.why_full else why)

    def _give_up(self) -> None:
        """Ends the program, since what it still writes would belong to no line."""
        if self.is_open:
            self._process.kill()
        self.close()

    def _send(self, line: bytes, text: bytes, count: int) -> None:
        """Sends a text, of a number of lines, which is to be answered in time."""
        self._asked, self._until = line, time.monotonic() + self._seconds
        self._count += count
        self.sent += len(text)
        try:
            while text:
                try:
                    text = text[os.write(self._into, text) :]
                except BlockingIOError:
                    self._wait(self._has_space)
        except BrokenPipeError:
            raise self._ended()

    def _next(self) -> bytes:
        """The next line that the program writes."""
        while not self._lines:
            self._wait(self._has_answer)
            part = os.read(self._out, PIECE)
            if not part:
                raise self._ended()
            *whole, self._begun = (self._begun + part).split(b"\n")
            self._lines.extend(whole)
        return self._lines.popleft()

    def _wait(self, ready: "select.poll") -> None:
        """Waits until a pipe is ready, or the time for the answer is over."""
        left = self._until - time.monotonic()
        if left <= 0 or not ready.poll(left * 1000):
            raise NoAnswer(self.shown(self._asked), self._seconds)

    def _ended(self) -> Failure:
        """Why the program ended on its own."""
        self.close()
        status = self._process.returncode
        return process.failed(status) if status not in (0, 1) else Failure("the program ended before its input did")

    def shown(self, line: bytes) -> str:
        """A line as it was written, with names in the place of ids."""
        return self._ids.named(line).decode("utf-8", "replace")

    def _refusal(self, line: bytes, reply: bytes) -> LineRefused:
        found = REFUSED.fullmatch(reply.decode("utf-8", "replace"))
        if not found:
            self._give_up()
            raise Failure("the program wrote what is no reply: %r" % reply[:80])
        comment = b"# refused %s %s: %s" % (found[1].encode(), found[2].encode(), line)
        self.journal += comment[:MAX_LINE] + b"\n"
        return LineRefused(self.shown(line), int(found[1]), found[2], found[3])

"""XPath within a time limit: a process finds the elements (xpath_worker.py), and is ended where that takes too long."""
import json
import os
import select
import subprocess
import sys
import threading
import time
from typing import Any, Dict, List, Optional

from .errors import Problem

SECONDS = 10.0
# the longest expression, in characters
MOST = 4096
WORKER = os.path.join(os.path.dirname(os.path.abspath(__file__)), "xpath_worker.py")


class Finder:
    """One such process, which is started when it is first needed. Several threads may ask: one after the other."""

    def __init__(self, seconds: float = SECONDS):
        self.seconds = seconds
        # without the packages beside Python's library where this process is so
        self.flags = ["-S"] if sys.flags.no_site else []
        self._lock = threading.Lock()
        self._process: "Optional[subprocess.Popen[bytes]]" = None
        self._source = ""
        self._begun = b""

    def found(self, source: str, path: str, inside: int = -1) -> List[int]:
        """The places in document order of the elements that an expression leads to, from an element or the root on."""
        if len(path) > MOST:
            raise Problem("invalid selector", "an expression has %d characters at most" % MOST)
        with self._lock:
            try:
                answer = self._asked(source, path, inside)
            except (OSError, ValueError) as error:
                self._end()
                raise Problem("unknown error", "the process that finds by XPath has ended: %s" % error)
        if "error" in answer:
            raise Problem("invalid selector", "'%s': %s" % (path, answer["error"]))
        return [int(it) for it in answer["found"]]

    def _asked(self, source: str, path: str, inside: int) -> Dict[str, Any]:
        started = self._process or self._started()
        assert started.stdin is not None
        request: Dict[str, Any] = {"path": path, "inside": inside}
        if source != self._source:
            request["source"] = self._source = source
        started.stdin.write(json.dumps(request).encode() + b"\n")
        started.stdin.flush()
        answer: Dict[str, Any] = json.loads(self._line(started, path))
        return answer

    def _line(self, started: "subprocess.Popen[bytes]", path: str) -> bytes:
        assert started.stdout is not None
        until = time.monotonic() + self.seconds
        ready = select.poll()
        ready.register(started.stdout, select.POLLIN)
        while b"\n" not in self._begun:
            if not ready.poll(max(0.0, until - time.monotonic()) * 1000):
                self._end()
                raise Problem("timeout", "'%s' takes longer than %g seconds" % (path, self.seconds))
            part = os.read(started.stdout.fileno(), 65536)
            if not part:
                raise ValueError("it closed its output")
            self._begun += part
        line, _, self._begun = self._begun.partition(b"\n")
        return line

    def _started(self) -> "subprocess.Popen[bytes]":
        self._source, self._begun = "", b""
        # an interrupt of the terminal is for the server, at whose end this one's input ends
        self._process = subprocess.Popen(
            [sys.executable, *self.flags, WORKER], stdin=subprocess.PIPE, stdout=subprocess.PIPE, start_new_session=True
        )
        return self._process

    def _end(self) -> None:
        if self._process is not None:
            self._process.kill()
            self._process.communicate()
            self._process = None

    def close(self) -> None:
        """Ends the process, also while a thread waits for its answer."""
        started = self._process
        if started is not None:
            started.kill()
        with self._lock:
            self._end()

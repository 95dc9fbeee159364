"""The sessions of a server: a number of them at most, each for as long as it is used."""
import contextlib
import secrets
import threading
import time
from dataclasses import dataclass
from typing import Any, Dict, List

from .capabilities import Place, chosen, opened, returned
from .errors import Problem
from .locators import Locators
from .screen import Screen
from .xpath import Finder


@dataclass(frozen=True)
class Limits:
    """How many sessions there may be, after how many seconds without a request one ends, how many bytes a request may
    have, how many seconds it may take to arrive, and how many connections there may be."""

    sessions: int = 16
    idle: float = 3600.0
    body: int = 16 << 20
    arrival: float = 30.0
    connections: int = 64


class Keeper:
    """The sessions by their ids. Several threads may ask."""

    def __init__(self, place: Place, limits: Limits):
        self.limits = limits
        self._place = place
        self._lock = threading.Lock()
        self._screens: Dict[str, Screen] = {}
        self._closing: Dict[str, contextlib.ExitStack] = {}
        self._begun = 0
        self.finder = Finder()

    def __len__(self) -> int:
        return len(self._screens) + self._begun

    def new(self, body: Any) -> Dict[str, Any]:
        """Begins a session. Returns its id, and what it can do."""
        wanted = chosen(body)
        with self._lock:
            if len(self) >= self.limits.sessions:
                raise Problem("session not created", "there are %d sessions, as many as this server takes" % len(self))
            self._begun += 1
        closing = contextlib.ExitStack()
        try:
            session = opened(wanted, self._place, closing)
            screen = Screen(session, returned(wanted, session), Locators(self.finder))
            screen.show()
        except BaseException:
            closing.close()
            with self._lock:
                self._begun -= 1
            raise
        name = secrets.token_hex(16)
        with self._lock:
            self._begun -= 1
            self._screens[name], self._closing[name] = screen, closing
        return {"sessionId": name, "capabilities": screen.capabilities}

    def screen(self, name: str) -> Screen:
        """The session of an id."""
        with self._lock:
            if name not in self._screens:
                raise Problem("invalid session id", "there is no session %s, or it has ended" % name[:64])
            found = self._screens[name]
            found.used = time.monotonic()
            return found

    def end(self, name: str) -> None:
        """Ends a session, once its request is answered."""
        with self._lock:
            screen, closing = self._screens.pop(name, None), self._closing.pop(name, None)
        if screen is not None and closing is not None:
            with screen.lock:
                closing.close()

    def names(self) -> List[str]:
        """The ids of all sessions."""
        with self._lock:
            return list(self._screens)

    def end_unused(self) -> None:
        """Ends those sessions that were not used for too long."""
        now = time.monotonic()
        with self._lock:
            old = [
                name for name, it in self._screens.items() if now - it.used > self.limits.idle and not it.lock.locked()
            ]
        for name in old:
            self.end(name)

    def close(self) -> None:
        """Ends all, also what is carried out."""
        self.finder.close()
        with self._lock:
            running = [it.session for it in self._screens.values()]
        for session in running:
            session.kill()
        for name in self.names():
            self.end(name)

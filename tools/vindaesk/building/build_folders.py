"""Rooms: folders in which crates are built side by side.

The toolchain's `rt` locks the folders of a crate and of all that it uses, so that in one checkout crates that use the
same one are built in turn. A room is a checkout in which one crate is built at a time: the sources of it and of all
that it uses, their libraries, and the crate's own out/, which is put back when it has been built. Rooms are used again,
since most of what a crate uses others use too.
"""
import contextlib
import fcntl
import hashlib
import os
import shutil
import subprocess
import tempfile
from typing import Callable, Dict, Iterable, Iterator, List

from ..common.failures import Failure, NOT_BUILT
from ..common.messages import say
from .crates import Crate, READ

LIBRARY = os.path.join("out", "rlib")


def link(parts: List[str], source: str, target: str) -> None:
    """Gives the files below some folders a second name in another folder, or copies them where that cannot be: the
    toolchain writes into no file that is there."""
    for how in ("-al", "-a") if parts else ():
        words = ["cp", how, "--parents", "--", *parts, target]
        ended = subprocess.run(words, cwd=source, stderr=subprocess.PIPE)
        if ended.returncode == 0:
            return
        for it in parts:
            remove(os.path.join(target, it))
    if parts:
        raise Failure("the sources cannot be copied: %s" % ended.stderr.decode("utf-8", "replace").strip(), NOT_BUILT)


def remove(folder: str) -> None:
    """Removes a folder with all that is in it."""
    subprocess.run(["rm", "-rf", "--", folder], stderr=subprocess.DEVNULL)


def lock(folder: str, handle: int, pause: Callable[[], None]) -> None:
    """Keeps other calls of `rt` out of the folder of a crate, as it does itself, once one that is in it has ended."""
    is_said = False
    while True:
        try:
            fcntl.flock(handle, fcntl.LOCK_EX | fcntl.LOCK_NB)
            return
        except BlockingIOError:
            if not is_said:
                say("waiting for another rt to finish in %s" % folder)
            is_said = True
            pause()
        except OSError:
            # there are file systems without locks
            return


@contextlib.contextmanager
def locked(folders: Iterable[str], pause: Callable[[], None]) -> Iterator[None]:
    """Locks folders, in the order in which `rt` does; `pause` is called while there is something to wait for."""
    with contextlib.ExitStack() as stack:
        for folder in sorted(folders):
            handle = os.open(folder, os.O_RDONLY)
            stack.callback(os.close, handle)
            lock(folder, handle, pause)
        yield


def place_for(top: str) -> str:
    """Where the rooms of a checkout are: outside of it, since `rt` refuses sources that are there twice, and on its
    disk where that can be. It is the same place each time, so that what a build left that was killed is found again."""
    disk = os.stat(top).st_dev
    places = [tempfile.gettempdir(), os.path.dirname(top)]
    fit = [it for it in places if os.stat(it).st_dev == disk and os.access(it, os.W_OK)]
    name = "vindaesk-%d-%s" % (os.geteuid(), hashlib.sha256(top.encode()).hexdigest()[:12])
    return os.path.join([*fit, *places][0], name)


class Rooms:
    """The rooms of a checkout, whose crates have to be locked."""

    def __init__(self, top: str):
        self.top, self.place = top, place_for(top)
        # those in which nothing is built, and those of the crates that are being built
        self.empty: List[str] = []
        self.taken: Dict[str, str] = {}

    def __enter__(self) -> "Rooms":
        os.makedirs(self.place, 0o700, exist_ok=True)
        if os.path.islink(self.place) or os.stat(self.place).st_uid != os.geteuid():
            raise Failure("%s is not yours: remove it" % self.place, NOT_BUILT)
        self.clear()
        return self

    def __exit__(self, *_: object) -> None:
        self.clear()
        remove(self.place)

    def clear(self) -> None:
        """Puts back what was being built, also by a build that was killed, and removes all rooms."""
        for room in os.listdir(self.place):
            crates = os.path.join(self.place, room, "crates")
            for name in os.listdir(crates) if os.path.isdir(crates) else []:
                move(name, os.path.join(self.place, room), self.top)
            remove(os.path.join(self.place, room))

    def enter(self, crate: Crate, used: List[Crate]) -> str:
        """Makes a room ready for a crate and the libraries of all that it uses, and returns the folder to build it
        in."""
        if not self.empty:
            self.empty.append(tempfile.mkdtemp(dir=self.place))
        room = self.taken[crate.name] = self.empty.pop()
        parts = [os.path.join("crates", it.name, part) for it in [*used, crate] for part in READ]
        parts += [os.path.join("crates", it.name, LIBRARY) for it in used]
        link([it for it in parts if is_lacking(it, self.top, room)], self.top, room)
        with open(os.path.join(room, "crates.txt"), "w") as file:
            file.write("".join(it.row + "\n" for it in [*used, crate]))
        move(crate.name, self.top, room)
        return os.path.join(room, "crates", crate.name)

    def leave(self, name: str) -> None:
        """Puts what was built of a crate into the checkout."""
        room = self.taken.pop(name)
        move(name, room, self.top)
        self.empty.append(room)


def is_lacking(part: str, top: str, room: str) -> bool:
    """Whether a folder of a checkout is not yet in a room."""
    return os.path.isdir(os.path.join(top, part)) and not os.path.lexists(os.path.join(room, part))


def move(name: str, source: str, target: str) -> None:
    """Moves a crate's out/ from the checkout to a room, or back."""
    found, made = (os.path.join(it, "crates", name, "out") for it in (source, target))
    if os.path.isdir(found) and os.path.isdir(os.path.dirname(made)) and not os.path.lexists(made):
        shutil.move(found, made)

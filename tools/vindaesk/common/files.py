"""Files are read and written whole, or not at all. The path `-` is standard input, or standard output."""
import os
import sys
from typing import Tuple

from .failures import Failure, NOT_RUN

# more than any script, answer or picture that a tool reads has
MAX_BYTES = 1 << 30


def named(path: str) -> str:
    """A path as messages name it."""
    return "standard input" if path == "-" else path


def read(path: str, limit: int = MAX_BYTES) -> bytes:
    """The bytes of a file."""
    try:
        if path == "-":
            found = sys.stdin.buffer.read(limit + 1)
        else:
            with open(path, "rb") as file:
                found = file.read(limit + 1)
    except (OSError, ValueError) as error:
        raise Failure("%s cannot be read: %s" % (named(path), getattr(error, "strerror", None) or error), NOT_RUN)
    if len(found) > limit:
        raise Failure("%s has more than %d bytes" % (named(path), limit), NOT_RUN)
    return found


def created(folder: str, start: str) -> Tuple[int, str]:
    """A new file of a folder, whose name begins so and was that of no file: opened for writing, and its path.
    `tempfile` does the same, but takes as long to be loaded as a small script takes to be run."""
    while True:
        path = os.path.join(folder, start + os.urandom(6).hex())
        try:
            return os.open(path, os.O_CREAT | os.O_EXCL | os.O_WRONLY | os.O_CLOEXEC, 0o666), path
        except FileExistsError:
            continue


def replace(path: str, body: bytes) -> None:
    """Puts a file in the place of one that may be there: under another name first, so that it is never half written."""
    folder, name = os.path.split(os.path.realpath(path))
    place = None
    try:
        if os.path.exists(path) and not os.path.isfile(path):
            raise Failure("%s cannot be written: it is no file" % path, NOT_RUN)
        handle, place = created(folder, "." + name[:64] + ".")
        with open(handle, "wb") as file:
            file.write(body)
        os.replace(place, os.path.join(folder, name))
        place = None
    except (OSError, ValueError) as error:
        raise Failure("%s cannot be written: %s" % (path, getattr(error, "strerror", None) or error), NOT_RUN)
    finally:
        if place is not None:
            os.unlink(place)


def check_place(path: str) -> None:
    """A place in which no file can be written is a failure: known before long work, and not after it."""
    try:
        if os.path.exists(path) and not os.path.isfile(path):
            raise Failure("%s cannot be written: it is no file" % path, NOT_RUN)
        handle, place = created(os.path.dirname(os.path.realpath(path)), ".")
        os.close(handle)
        os.unlink(place)
    except OSError as error:
        raise Failure("%s cannot be written: %s" % (path, error.strerror), NOT_RUN)


def remove(path: str) -> None:
    """Takes a file away, where it is there."""
    try:
        os.unlink(path)
    except FileNotFoundError:
        pass
    except OSError as error:
        raise Failure("%s cannot be removed: %s" % (path, error.strerror), NOT_RUN)


def mask() -> int:
    """Which rights a new file does not get."""
    now = os.umask(0o077)
    os.umask(now)
    return now


def write(path: str, body: bytes) -> None:
    """Writes a file, or standard output."""
    if path == "-":
        sys.stdout.flush()
        sys.stdout.buffer.write(body)
        sys.stdout.buffer.flush()
    else:
        replace(path, body)

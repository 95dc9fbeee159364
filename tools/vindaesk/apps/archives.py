"""ZIP archives, as apps are: read with limits, since a small one can say that it holds anything."""
import contextlib
import os
import struct
import zipfile
import zlib
from typing import Iterator, List

from ..common.failures import Failure, NOT_RUN
from ..common.messages import printable

# the end of an archive: a signature, five fields that are passed over, the size of its directory, and two fields more;
# before it the signature of the form for larger archives, and after it a comment
END = struct.Struct("<4s8xI6x")
SIGNATURE, LARGE = b"PK\5\6", b"PK\6\7"
LARGE_SIZE = 20
MAX_COMMENT = 65535
# the directory of 65535 files, each with a name of some 200 bytes
MAX_DIRECTORY = 1 << 24
BROKEN = (zipfile.BadZipFile, zlib.error, struct.error, EOFError, ValueError, NotImplementedError, RuntimeError)
PACKINGS = (zipfile.ZIP_STORED, zipfile.ZIP_DEFLATED)


def failure(path: str, why: str) -> Failure:
    """What is wrong with an archive."""
    return Failure("%s cannot be unpacked: %s" % (path, printable(why)), NOT_RUN)


def check_size(path: str) -> None:
    """An archive with a directory that is too large to be read is a failure."""
    with open(path, "rb") as file:
        size = file.seek(0, os.SEEK_END)
        file.seek(max(0, size - MAX_COMMENT - END.size - LARGE_SIZE))
        last = file.read()
    at = last.rfind(SIGNATURE)
    if at < 0 or at + END.size > len(last):
        raise failure(path, "it is no archive, or it is cut short")
    _, directory = END.unpack_from(last, at)
    if directory > MAX_DIRECTORY or last[max(0, at - LARGE_SIZE) : at].startswith(LARGE):
        raise failure(path, "it has more files than an app has")


def leads_out(name: str) -> bool:
    """Whether a name leads out of the folder in which it would be written."""
    return name.startswith("/") or "\\" in name or "\0" in name or ".." in name.split("/")


def check_names(path: str, infos: List[zipfile.ZipInfo], is_written: bool) -> None:
    """An archive with a name that two files have is a failure, and, where its files are to be written, one with a
    name that leads out of it."""
    seen = set()
    for info in infos:
        name = info.orig_filename
        if is_written and leads_out(name):
            raise failure(path, "'%s' is a name that leads out of it" % name[:160])
        if name in seen:
            raise failure(path, "two of its files are named '%s'" % name[:160])
        seen.add(name)


class Archive:
    """An archive that is open."""

    def __init__(self, path: str, file: zipfile.ZipFile):
        self.path = path
        self.file = file
        self.infos = {it.filename: it for it in file.infolist() if not leads_out(it.orig_filename)}

    def names(self) -> List[str]:
        """The names of its files, in order."""
        return sorted(self.infos)

    def has(self, name: str) -> bool:
        """Whether there is a file of this name."""
        return name in self.infos

    def read(self, name: str, limit: int) -> bytes:
        """The bytes of a file, which has at most this many."""
        info = self.infos[name]
        if info.compress_type not in PACKINGS or info.flag_bits & 1:
            raise failure(self.path, "'%s' is encrypted, or packed as no app is" % name)
        try:
            with self.file.open(info) as file:
                found = file.read(limit + 1) if info.file_size <= limit else bytes(limit + 1)
        except (*BROKEN, OSError) as error:
            raise failure(self.path, "'%s' is broken: %s" % (name, error))
        if len(found) > limit:
            raise failure(self.path, "'%s' has more than %d bytes" % (name, limit))
        return found


@contextlib.contextmanager
def opened(path: str, is_written: bool = True) -> Iterator[Archive]:
    """An archive, for as long as it is read. Where no file of it is to be written, those with names that lead out of
    it are passed over."""
    try:
        check_size(path)
        file = zipfile.ZipFile(path)
    except BROKEN as error:
        raise failure(path, str(error))
    except OSError as error:
        raise Failure("%s cannot be read: %s" % (path, error.strerror or error), NOT_RUN)
    with file:
        check_names(path, file.infolist(), is_written)
        yield Archive(path, file)

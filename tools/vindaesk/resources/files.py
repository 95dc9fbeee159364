"""Where tables come from: apps, which are archives with a resources.arsc, and bare tables."""
import lzma
import os
import struct
import zipfile
import zlib
from typing import BinaryIO

from ..common.failures import Failure
from ..common.messages import printable
from .tables import Table

NAME = "resources.arsc"
# bytes that a table may have; that of Android's framework has 32 million
MAX_TABLE = 100000000
# bytes that the list of an archive's files may have; that of Android's framework has 800 thousand
MAX_LIST = 1 << 24
# the end of an archive: its mark, its size, and where it says the size of the list
END, END_SIZE, LIST_SIZE = b"PK\5\6", 22, 12
MAX_COMMENT = 0xFFFF
BROKEN = (zipfile.BadZipFile, zlib.error, lzma.LZMAError, EOFError, NotImplementedError, RuntimeError, ValueError,
          struct.error, OverflowError, IndexError, OSError)


def check_list(file: BinaryIO, path: str) -> None:
    """Failure where the list of an archive's files is larger than `MAX_LIST`: Python reads it as a whole."""
    size = os.fstat(file.fileno()).st_size
    file.seek(max(0, size - END_SIZE - MAX_COMMENT))
    end = file.read()
    at = end.rfind(END, 0, len(end) - END_SIZE + len(END))
    stated = struct.unpack_from("<I", end, at + LIST_SIZE)[0] if at >= 0 else 0
    if stated > MAX_LIST:
        raise Failure("%s: its list of files has more than %d bytes" % (printable(path), MAX_LIST))
    file.seek(0)


def table_bytes(path: str) -> bytes:
    """The bytes of the table of an app (apk, jar or another zip) or of a bare resources.arsc. Failure where there is
    none, or where it is too large; OSError where the file cannot be read."""
    with open(path, "rb") as file:
        if file.read(4) != b"PK\3\4":
            file.seek(0)
            data = file.read(MAX_TABLE + 1)
        else:
            check_list(file, path)
            data = member(file, path)
    if len(data) > MAX_TABLE:
        raise Failure("%s: its %s has more than %d bytes" % (printable(path), NAME, MAX_TABLE))
    return data


def member(file: BinaryIO, path: str) -> bytes:
    """The bytes of the table in an archive, up to one more than `MAX_TABLE`."""
    try:
        with zipfile.ZipFile(file) as archive, archive.open(NAME) as found:
            return found.read(MAX_TABLE + 1)
    except KeyError:
        raise Failure("%s: it has no %s" % (printable(path), NAME)) from None
    except BROKEN as error:
        raise Failure("%s: it cannot be unpacked: %s" % (printable(path), printable(str(error)))) from None


def open_table(path: str) -> Table:
    """The table of an app, of a framework, or of a bare resources.arsc."""
    return Table(table_bytes(path), path)

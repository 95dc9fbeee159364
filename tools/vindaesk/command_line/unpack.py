"""The layout files of an app, and a script of lines that give the resources that they name their values.

The layouts res/layout/NAME.xml are written as DIR/NAME.xml, those of other configurations as DIR/NAME-land.xml and so
on, and the lines as DIR/resources.lines; what is there under these names is replaced. A resource whose value no line
can say has a comment there.

The status is 1 where a layout is broken, or where the values cannot be looked up; the layouts are written all the same.
It is 2 where the app cannot be unpacked; then nothing is written.
"""
import argparse
import os
import tempfile
from typing import Container, Dict, List, Optional, Sequence, Tuple

from ..apps import archives, unpacker
from ..apps.unpacker import Unpacked
from ..common import failures, files, messages
from ..common.messages import say
from . import arguments
from .uses import Purpose, Use

USE = Use(Purpose.READ, "vindaesk unpack inbox/inbox.apk out",
          "the layouts of an app, and lines with the values that they name")


def reader() -> argparse.ArgumentParser:
    """The arguments."""
    found = arguments.parser(__doc__)
    found.add_argument("app", metavar="APP.apk", help="the app")
    found.add_argument("folder", metavar="DIR", help="where the files go; it is made where it is not there")
    return found


def looked_up(
    layouts: List[Unpacked], table: Optional[bytes], no_table: str, paths: Container[str]
) -> Tuple[Optional[List[Tuple[bytes, bool]]], bool]:
    """The lines of the script and how many of them are values, or nothing where there are none to be had; and whether
    all went well. What did not is reported."""
    refused: Dict[str, str] = {}
    with tempfile.TemporaryDirectory() as folder:
        unpacker.put(folder, {it.name: it.body for it in layouts})
        ids = unpacker.named([it.name for it in layouts], folder, refused)
        for it in layouts:
            if it.name in refused:
                say("%s is %s" % (it.path, refused[it.name]))
        if ids and table is None:
            say("no values are written: %s" % no_table)
            return None, False
        unpacker.put(folder, {unpacker.TABLE: table or b""})
        found, why = unpacker.answers(ids, folder)
    if why:
        say("no values are written: %s" % why)
        return None, False
    return list(unpacker.lines_of(found, paths)), not refused


def main(words: Optional[Sequence[str]] = None) -> int:
    given = reader().parse_args(words)
    with archives.opened(given.app) as archive:
        layouts, (table, no_table) = unpacker.layouts_of(archive), unpacker.table_of(archive)
        paths = set(archive.infos)
    lines, is_well = looked_up(layouts, table, no_table, paths)
    os.makedirs(given.folder, exist_ok=True)
    for it in layouts:
        files.replace(os.path.join(given.folder, it.name), it.body)
        print("%s is %s" % (it.name, messages.printable(it.path)))
    if lines is not None:
        files.replace(os.path.join(given.folder, unpacker.SCRIPT), b"".join(line + b"\n" for line, _ in lines))
        count = sum(is_said for _, is_said in lines)
        print("%s has %d values, and %d that no line can say" % (unpacker.SCRIPT, count, len(lines) - count))
    return 0 if is_well else failures.WRONG

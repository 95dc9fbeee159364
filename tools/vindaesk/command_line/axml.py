"""Compiles the source of a layout into the form that the line inflate reads, or makes a source of a compiled file.

The values of the attributes in docs/FORMATS.md are compiled as `aapt2` does it. Any other attribute is compiled by the
form of its value, and passed over when views are made of it; those of the namespace `tools` are left out.

Names of resources, as @+id/title and @dimen/gap, have their ids in a list of lines `app:id/title = 0x7f080000`, which
`aapt2 link --emit-ids` writes too. A name with a plus gets an id there if it has none. With --text names are taken from
the list, if it is there, and each element is in the line that it had.

Each value that does not fit is reported with file, line and column; then the status is 1, and nothing is written.
"""
import argparse
import os
from typing import List, Optional, Sequence, Tuple

from ..common import failures, files, messages
from ..common.failures import Failure
from ..layouts import compiler, documents, source_reader, source_writer
from ..scripts.resource_names import Names
from . import arguments
from .uses import Purpose, Use

USE = Use(Purpose.READ, "vindaesk axml inbox/res/layout/inbox.xml out.xml --ids inbox/ids.txt",
          "compiles the source of a layout, or makes a source of a compiled one")


def reader() -> argparse.ArgumentParser:
    """The arguments."""
    found = arguments.parser(__doc__)
    found.add_argument("source", metavar="SRC.xml", help="the source, or - for standard input")
    found.add_argument("out", metavar="OUT.xml", help="the compiled file, or - for standard output")
    found.add_argument("--ids", metavar="FILE", help="the list of ids; ids.txt beside OUT.xml without it")
    found.add_argument("--text", action="store_true", help="makes a source of a compiled file")
    return found


def list_of(given: argparse.Namespace) -> Tuple[str, Names]:
    """The path of the list of ids, and the list, which is empty where there is none yet."""
    beside = os.path.dirname(given.out) if given.out != "-" else ""
    path = given.ids or os.path.join(beside, "ids.txt")
    is_there = os.path.exists(path) or (given.ids and given.text)
    return path, Names(files.read(path) if is_there else b"", path)


def source_of(compiled: bytes, name: str, names: Names) -> bytes:
    """A source of a compiled file. One that does not fit is written all the same, and that is reported."""
    made = source_writer.text(documents.of_file(compiled, name), names).encode()
    try:
        _, wrong = source_reader.read(made, "the source", names)
    except Failure as failure:
        raise Failure("%s cannot be written as a source: %s" % (name, failure), failures.NOT_RUN)
    if wrong:
        more = "; and %d more" % (len(wrong) - 1) if len(wrong) > 1 else ""
        messages.say("this tool itself refuses what it writes: %s%s" % (wrong[0], more))
    return made


def main(words: Optional[Sequence[str]] = None) -> int:
    given = arguments.parsed(reader(), words)
    source = files.read(given.source, source_reader.MAX_BYTES)
    path, names = list_of(given)
    if given.text:
        files.write(given.out, source_of(source, files.named(given.source), names))
        return 0
    notes: List[str] = []
    nodes, wrong = source_reader.read(source, files.named(given.source), names, notes)
    for sentence in [*notes, *wrong]:
        messages.say(sentence)
    if wrong:
        return failures.WRONG
    made = compiler.compiled(nodes)
    if names.is_changed:
        files.replace(path, names.written())
    files.write(given.out, made)
    return 0

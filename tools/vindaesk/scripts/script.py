"""The lines of a script that tools have to know. docs/SCRIPT.md has them all, and docs/TOOLS.md those that only tools
have: `include FILE`, and names of ids."""
import os
import re
from typing import List, NamedTuple, Optional, Sequence, Tuple

from ..common import files
from ..common.failures import Failure, NOT_RUN
from ..program.statuses import MAX_SCRIPT
from . import names
from .names import Expanded, Ids, Unknown

NUMBER = re.compile(rb"0|-?[1-9][0-9]{0,9}")
INCLUDE = rb" *include +(.*?) *\r?"
MAX_LINE = 1024
MAX_SIDE = 4096
# how deep files may include others, and how many times
MAX_DEPTH = 16
MAX_INCLUDES = 1000

Window = Tuple[int, int]


class Line(NamedTuple):
    """A line as it was written: its bytes, the file, and its number there, from 1; and files and numbers of the lines
    that include that file, from the innermost."""

    text: bytes
    file: str
    number: int
    around: Tuple[Tuple[str, int], ...] = ()

    def place(self) -> str:
        """Where it is, as messages write it."""
        return "%s:%d" % (files.named(self.file), self.number)


class Script:
    """A script: its lines as the program is given them, the folder in which its layout files are, and the same lines as
    they were written, without which each is of a file without a name. `file` is the one that was named in the call."""

    def __init__(self, lines: Sequence[bytes], folder: str, written: Sequence[Line] = (), ids: Ids = names.NONE):
        self.lines = list(lines)
        self.folder = folder
        self.written = list(written) or [Line(text, "-", number) for number, text in enumerate(lines, 1)]
        self.file = self.written[0].file if self.written else "-"
        self.ids = ids

    def expanded(self, number: int) -> Expanded:
        """How the line of a number, from 1, was made of what was written."""
        return self.ids.expanded(self.written[number - 1].text)

    def place(self, number: int) -> Line:
        """Where the line of a number, from 1, was written."""
        return self.written[number - 1]


def read(path: str, ids: Optional[str] = None) -> Script:
    """The script of a file, or of standard input, whose layout files are in the current folder. Names of ids are those
    of a list, by its path, or of the folder's ids.txt; one without an id is a failure."""
    return named(written_in(path), path, ids)


def named(lines: Sequence[Line], path: str, ids: Optional[str] = None, is_strict: bool = True) -> Script:
    """The script of lines that were written, with ids in the place of their names. A name without an id is a failure,
    or stays, if the call is not strict."""
    own = os.path.dirname(path) if path != "-" else ""
    known = names.beside(own, ids)
    made = [known.expanded(line.text) for line in lines]
    wrong = [(line, it) for line, found in zip(lines, made) for it in found.unknown]
    if wrong and is_strict:
        raise Failure(unnamed(wrong))
    found = Script([it.text for it in made], os.path.abspath(own or "."), lines, known)
    found.file = path
    return found


def unnamed(wrong: Sequence[Tuple[Line, Unknown]]) -> str:
    """Names without an id, in a sentence."""
    line, first = wrong[0]
    more = len(wrong) - 1
    others = "" if not more else "; and 1 more name has no id" if more == 1 else "; and %d more names have no id" % more
    return "%s:%d: %s%s" % (line.place(), first.column, first.why, others)


def written_in(path: str, text: Optional[bytes] = None) -> List[Line]:
    """The lines of a script as they were written, with those of the files that it includes in their place. Its text is
    read where it is not given."""
    return Includer().lines(path, files.read(path, MAX_SCRIPT) if text is None else text, [])


class Includer:
    """Puts the lines of files in the place of lines `include FILE`. A FILE is a path from the folder of the file that
    includes it."""

    def __init__(self) -> None:
        self.count = 0
        self.size = 0

    def lines(self, path: str, text: bytes, around: Sequence[str], by: Tuple[Tuple[str, int], ...] = ()) -> List[Line]:
        """The lines of a file, which the files `around` it include, from the outermost, `by` these lines."""
        self.size += len(text)
        found: List[Line] = []
        for number, line in enumerate(lines_in(text), 1):
            inner = included(line)
            here = Line(line, path, number, by)
            found += [here] if inner is None else self.inner(inner, here, [*around, path])
        return found

    def inner(self, name: str, at: Line, around: Sequence[str]) -> List[Line]:
        """The lines of the file that a line includes."""
        # loaded where a file is included, since each start would take longer
        from . import sentences

        if "\0" in name:
            raise failure(at, "no file has a name with the byte 0 in it")
        path = os.path.normpath(os.path.join(os.path.dirname(around[-1]) if around[-1] != "-" else "", name))
        self.count += 1
        chain = [*around, path]
        same = next((place for place, it in enumerate(around) if os.path.realpath(it) == os.path.realpath(path)), None)
        if same is not None:
            chain = chain[same:]
            raise failure(at, ", which includes ".join([chain[0] + " includes " + chain[1], *chain[2:]]))
        if not name:
            raise failure(at, sentences.NO_INCLUDED)
        if os.path.isabs(name):
            raise failure(at, "%s is no path from the folder of this file" % name)
        if len(around) > MAX_DEPTH or self.count > MAX_INCLUDES:
            raise failure(at, sentences.MANY_INCLUDES % (MAX_DEPTH, MAX_INCLUDES))
        if not os.path.isfile(path):
            raise failure(at, sentences.NO_FILE % path)
        text = files.read(path, MAX_SCRIPT)
        if self.size + len(text) > MAX_SCRIPT:
            raise failure(at, sentences.LONG_INCLUDE % MAX_SCRIPT)
        return self.lines(path, text, around, ((at.file, at.number), *at.around))


def failure(at: Line, why: str) -> Failure:
    """What is wrong with a line `include`."""
    return Failure("%s: include: %s" % (at.place(), why), NOT_RUN)


def included(line: bytes) -> Optional[str]:
    """The file that a line includes."""
    if words_of(line)[:1] != [b"include"]:
        return None
    found = re.fullmatch(INCLUDE, line, re.DOTALL)
    return os.fsdecode(found[1]) if found else ""


def lines_in(text: bytes) -> List[bytes]:
    """The lines of a text; a last one without a line feed counts if it is not empty, and a carriage return at its end
    belongs to it."""
    *lines, last = text.split(b"\n")
    return lines + [last + b"\r" if last.endswith(b"\r") else last] if last else lines


def words_of(line: bytes) -> List[bytes]:
    """The words of a line; none where it is passed over, or too long to be read."""
    if line.startswith(b"#") or len(line) > MAX_LINE:
        return []
    return [it for it in without_return(line).split(b" ") if it]


def without_return(line: bytes) -> bytes:
    """A line less the one carriage return that may end it."""
    return line[:-1] if line.endswith(b"\r") else line


def unescaped(text: str) -> str:
    """A text of a line without its escapes."""
    return re.sub(r"\\([n\\])", lambda it: "\n" if it[1] == "n" else it[1], text)


def is_frame(line: bytes) -> bool:
    """Whether a line asks for a frame."""
    return words_of(line) == [b"frame"]


def is_root(line: bytes) -> bool:
    """Whether a line makes the root of the tree: `add root C W H`, or `inflate NAME`."""
    words = words_of(line)
    return words[:2] == [b"add", b"root"] or (words[:1] == [b"inflate"] and len(words) == 2)


def window_of(line: bytes) -> Optional[Window]:
    """Width and height of the window that a line opens; such a line is never refused."""
    words = words_of(line)
    if len(words) != 3 or words[0] != b"window" or not all(NUMBER.fullmatch(it) for it in words[1:]):
        return None
    width, height = int(words[1]), int(words[2])
    return (width, height) if 1 <= width <= MAX_SIDE and 1 <= height <= MAX_SIDE else None


def last_window(lines: Sequence[bytes]) -> Optional[Window]:
    """The last window that lines open."""
    return next(filter(None, map(window_of, reversed(lines))), None)


def joined(lines: Sequence[bytes]) -> bytes:
    """Lines as a script for the program, with what tools have added to them."""
    text = b"".join(line + b"\n" for line in lines)
    if len(text) > MAX_SCRIPT:
        raise Failure("with the lines that this tool adds the script has more than %d bytes" % MAX_SCRIPT, NOT_RUN)
    return text

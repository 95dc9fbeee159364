"""The configurations in which a script is tried: windows, densities, directions and values.

They are in NAME.toml beside NAME.script, or in vindaesk.toml for all scripts of a folder that have none of their own.
Each table is a configuration by its name; `matrix` has names of tables that are combined:

    picture = true
    matrix = [["portrait", "landscape"], ["day", "night"]]

    [portrait]
    window = [360, 640]
    [landscape]
    window = [640, 360]
    [day]
    [night]
    night = true

docs/TOOLS.md has the keys. What is before the first table holds for each configuration that has no such key.
"""
import functools
import itertools
import os
import re
from typing import Any, Dict, List, NamedTuple, Optional, Sequence, Tuple

from ..common import files, toml
from ..common.failures import Failure, NOT_RUN
from ..common.toml import Entry, Table
from ..scripts import script
from ..scripts.grammar import guess, listed
from ..scripts.script import MAX_SIDE, Includer, Line, Script
from ..views import screens
from ..views.screens import LEAST_DPI, MOST_DPI, PLAIN_DPI

FOLDER = "vindaesk.toml"
VALUES = "resources.lines"
MATRIX = "matrix"
MAX_FILE = 1 << 16
MAX_COUNT = 1000
# what may be a part of the name of a file
NAME = re.compile(r"[A-Za-z0-9_][A-Za-z0-9_.+-]{0,63}")
DIRECTIONS = ("ltr", "rtl")


class Configuration(NamedTuple):
    """A configuration: its name, and what it sets. Sides of the window are in dp; nothing is None or empty. `file` and
    `line` are where it is written."""

    name: str
    window: Optional[Tuple[int, int]] = None
    dpi: Optional[int] = None
    direction: str = ""
    night: bool = False
    locale: str = ""
    values: Tuple[str, ...] = ()
    picture: bool = False
    file: str = ""
    line: int = 0

    def failure(self, why: str) -> Failure:
        """What is wrong with it."""
        place = "%s:%d: " % (self.file, self.line) if self.file else ""
        named = self.name + ": " if self.name else ""
        return Failure(place + named + why, NOT_RUN)


KEYS = tuple(it for it in Configuration._fields if it not in ("name", "file", "line"))
# what each key takes
TAKES = {
    "window": "width and height in dp, as [360, 640]", "dpi": "a number from %d to %d" % (LEAST_DPI, MOST_DPI),
    "direction": listed(['"%s"' % it for it in DIRECTIONS]), "night": "true or false",
    "locale": 'a part of a file\'s name, as "de"', "values": 'a file, as "night.lines", or an array of files',
    "picture": "true or false",
}


def is_whole(value: object, least: int, most: int) -> bool:
    """Whether a value is a number between two bounds."""
    return isinstance(value, int) and not isinstance(value, bool) and least <= value <= most


def fitted(key: str, value: object) -> object:
    """The value of a key as a configuration has it; None where it does not fit."""
    if key == "window":
        is_size = isinstance(value, list) and len(value) == 2 and all(is_whole(it, 1, MAX_SIDE) for it in value)
        return tuple(value) if is_size and isinstance(value, list) else None
    if key == "dpi":
        return value if is_whole(value, LEAST_DPI, MOST_DPI) else None
    if key == "direction":
        return value if value in DIRECTIONS else None
    if key == "locale":
        return value if isinstance(value, str) and NAME.fullmatch(value) else None
    if key == "values":
        names = value if isinstance(value, list) else [value]
        return tuple(names) if names and all(isinstance(it, str) and it for it in names) else None
    return value if isinstance(value, bool) else None


def settings_of(entries: Dict[str, Entry], file: str, others: Sequence[str] = ()) -> Dict[str, object]:
    """What the keys of a table set, in which there may be other keys too, which were taken out."""
    found: Dict[str, object] = {}
    for key, entry in entries.items():
        if key not in KEYS:
            known = (*others, *KEYS)
            near = guess(key, known) or "; there are %s" % ", ".join(known)
            raise Failure("%s:%d: there is no key '%s'%s" % (file, entry.line, key, near), NOT_RUN)
        value = fitted(key, entry.value)
        if value is None:
            raise Failure("%s:%d: %s is %s" % (file, entry.line, key, TAKES[key]), NOT_RUN)
        found[key] = value
    return found


def axes_of(entry: Entry, tables: Dict[str, Table], file: str) -> List[List[str]]:
    """The lists of names of `matrix`."""
    given = entry.value
    at = "%s:%d: matrix" % (file, entry.line)
    if not (isinstance(given, list) and given and all(isinstance(it, list) and it for it in given)):
        raise Failure('%s is an array of arrays of names, as [["day", "night"], ["ltr", "rtl"]]' % at, NOT_RUN)
    axes = [[str(name) for name in axis] for axis in given if isinstance(axis, list)]
    names = [name for axis in axes for name in axis]
    for name in names:
        if name not in tables:
            why = "%s: there is no table [%s]%s" % (at, name, guess(name, tuple(tables)))
            raise Failure(why, NOT_RUN)
        if names.count(name) > 1:
            raise Failure("%s: '%s' is there twice" % (at, name), NOT_RUN)
    return axes


def combined(parts: Sequence[Tuple[Table, Dict[str, object]]], common: Dict[str, object], file: str) -> Configuration:
    """The configuration that some tables make together."""
    name = "-".join(table.name for table, _ in parts)
    line = parts[0][0].line
    made: Dict[str, Any] = dict(common)
    for place, (table, own) in enumerate(parts):
        twice = [(other.name, key) for other, taken in parts[:place] for key in own if key in taken]
        if twice:
            other_name, key = twice[0]
            raise Failure("%s:%d: [%s] and [%s] both set %s" % (file, table.line, other_name, table.name, key), NOT_RUN)
        made.update(own)
    if not NAME.fullmatch(name):
        why = "'%s' is no name: up to 64 letters, digits, _, -, + and ., the first a letter, a digit or _" % name
        raise Failure("%s:%d: %s" % (file, line, why), NOT_RUN)
    return Configuration(name, file=file, line=line)._replace(**made)


def of_tables(tables: List[Table], file: str, others: Sequence[str] = ()) -> List[Configuration]:
    """The configurations of a file's tables, of which the first may have had other keys too."""
    entries = dict(tables[0].entries)
    matrix = entries.pop(MATRIX, None)
    common = settings_of(entries, file, (*others, MATRIX))
    named = {table.name: table for table in tables[1:]}
    own = {name: settings_of(table.entries, file) for name, table in named.items()}
    axes = axes_of(matrix, named, file) if matrix else []
    used = {name for axis in axes for name in axis}
    groups = [*(itertools.product(*axes) if axes else ()), *((name,) for name in named if name not in used)]
    if len(groups) > MAX_COUNT:
        raise Failure("%s: there are more than %d configurations" % (file, MAX_COUNT), NOT_RUN)
    found = [combined([(named[name], own[name]) for name in group], common, file) for group in groups]
    if not found:
        raise Failure("%s: it has no configuration, as [landscape] with window = [640, 360]" % file, NOT_RUN)
    names = [it.name for it in found]
    for it in found:
        if names.count(it.name) > 1:
            raise it.failure("there are two of this name")
    return found


@functools.lru_cache(256)
def of_file(path: str, stamp: Tuple[int, int]) -> List[Configuration]:
    """The configurations of a file, which is read again once its time or its size is another one."""
    return of_tables(toml.read(files.read(path, MAX_FILE), path), path)


def of_script(path: str) -> List[Configuration]:
    """The configurations in which a script is tried; none where it is tried as it is."""
    stem = os.path.splitext(path)[0]
    for name in (stem + ".toml", os.path.join(os.path.dirname(path), FOLDER)):
        if os.path.lexists(name):
            if not os.path.isfile(name):
                raise Failure("%s is no file" % name, NOT_RUN)
            found = os.stat(name)
            return of_file(name, (found.st_mtime_ns, found.st_size))
    return []


def chosen(path: str, names: Sequence[str]) -> List[Configuration]:
    """The configurations of a script by their names; all of them for `all`."""
    there = of_script(path)
    known = {it.name: it for it in there}
    if not there:
        raise Failure("%s has no configurations: there is no %s beside it, and no %s" % (
            files.named(path), os.path.basename(os.path.splitext(path)[0]) + ".toml", FOLDER), NOT_RUN)
    for name in names:
        if name != "all" and name not in known:
            near = guess(name, tuple(known)) or "; there are %s" % ", ".join(known)
            raise Failure("%s has no configuration '%s'%s" % (there[0].file, name, near), NOT_RUN)
    return there if "all" in names else [known[name] for name in names]


# what a configuration makes of a script


def value_files(it: Configuration, folder: str) -> List[str]:
    """The files of lines that give resources their values, in the order in which they are carried out: of each file
    that is named, or of resources.lines, first itself, and then those of its locale and of the night beside it."""
    of = ["-" + it.locale] if it.locale else []
    of += ["-night"] if it.night else []
    of += ["-%s-night" % it.locale] if it.locale and it.night else []
    found = []
    for name in it.values or ((VALUES,) if of else ()):
        stem, ending = os.path.splitext(os.path.join(folder, name))
        others = [stem + more + ending for more in of]
        there = [path for path in others if os.path.isfile(path)]
        if it.values and not os.path.isfile(stem + ending):
            raise it.failure("there is no file %s" % (stem + ending))
        if of and not there:
            why = "locale and night choose files of values, and there is no %s" % listed(others)
            raise it.failure(why)
        found += [path for path in (stem + ending, *there) if os.path.isfile(path)]
    return found


def window_in(it: Configuration, size: Tuple[int, int], own: int) -> bytes:
    """The line that opens a window in a configuration, where a script has one of some size at some density."""
    dpi = it.dpi or own
    sides = tuple(screens.scaled(side, dpi, PLAIN_DPI) for side in it.window) if it.window else tuple(
        screens.scaled(side, dpi, own) for side in size)
    if max(sides) > MAX_SIDE:
        raise it.failure("a window of %d by %d pixels, at %d dots an inch, is larger than %d" % (*sides, dpi, MAX_SIDE))
    return b"window %d %d" % sides


def adapted(it: Configuration, lines: Sequence[Line], folder: str) -> List[Line]:
    """The lines of a script in a configuration: lines `window` and `dpi` say what the configuration says, values come
    right before the line that makes the root, and a direction right after it."""
    made: List[Line] = []
    own, is_window, is_root = PLAIN_DPI, False, False
    values = [line for path in value_files(it, folder) for line in Includer().lines(path, files.read(path), [])]

    def added(text: bytes) -> Line:
        return Line(text, it.file, it.line)

    for line in lines:
        size, dots = script.window_of(line.text), screens.dpi_of(line.text)
        own = dots or own
        if size:
            is_window = True
            line = line._replace(text=window_in(it, size, own)) if it.window or it.dpi else line
        elif dots and it.dpi:
            line = line._replace(text=b"dpi %d" % it.dpi)
        if script.is_root(line.text) and not is_root:
            is_root = True
            made += [*values, line]
            made += [added(b"direction v1 %s" % it.direction.encode())] if it.direction else []
        else:
            made.append(line)
    made += [] if is_root else values
    first = [added(b"dpi %d" % it.dpi)] if it.dpi else []
    first += [added(window_in(it, (0, 0), PLAIN_DPI))] if it.window and not is_window else []
    return first + made


def read(
    path: str, it: Optional[Configuration], ids: Optional[str] = None, is_strict: bool = True
) -> Script:
    """A script in a configuration, or as it is. Names without an id stay, if the call is not strict."""
    lines = script.written_in(path)
    if it is not None:
        lines = adapted(it, lines, os.path.dirname(path) if path != "-" else "")
    return script.named(lines, path, ids, is_strict)

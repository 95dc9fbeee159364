"""Puts the program, the tools, manual pages, completions and pages below a folder, from which they run wherever it is
copied: nothing there has its path. The file INSTALLED of lib/vindaesk lists what is outside of that folder, so that a
later version, or a removal, leaves nothing of it."""
import os
import shutil
import tempfile
from typing import List

from ..common import files
from ..common.failures import Failure, NOT_RUN
from ..common.places import TOP
from . import contents, sources
from .commands import Command
from .contents import Contents, File, LIBRARY

LIST = "INSTALLED"
PAGES = "share/doc/vindaesk"
FIRST_MANUAL = "share/man/man1/vindaesk.1"


def listed(prefix: str) -> List[str]:
    """What is installed below a folder, besides the library: files, and folders that were made, which end with a
    slash."""
    path = os.path.join(prefix, LIBRARY, LIST)
    return files.read(path).decode().splitlines() if os.path.exists(path) else listed_by_links(prefix)


def listed_by_links(prefix: str) -> List[str]:
    """What version 0.1.0 has installed, which kept no list: a manual page, and links into the library."""
    folder = os.path.join(prefix, "bin")
    if not is_ours(prefix) or not os.path.isdir(folder):
        return []
    links = [it for it in os.listdir(folder) if os.path.islink(os.path.join(folder, it))]
    mine = [it for it in links if os.readlink(os.path.join(folder, it)).startswith(os.path.join("..", LIBRARY))]
    return [FIRST_MANUAL, *(os.path.join("bin", it) for it in mine)]


def is_ours(prefix: str) -> bool:
    """Whether the library below a folder was installed from here."""
    return any(os.path.isfile(os.path.join(prefix, LIBRARY, it)) for it in (LIST, contents.PROGRAM))


def lacking(prefix: str, paths: List[str]) -> List[str]:
    """The folders of files that are not there yet, the outermost first; the folder itself is `./`."""
    found = set()
    for path in paths:
        folder = os.path.dirname(path)
        while folder and not os.path.isdir(os.path.join(prefix, folder)):
            found.add(folder + "/")
            folder = os.path.dirname(folder)
    top = [] if os.path.isdir(prefix) else ["./"]
    return top + sorted(found)


def look(prefix: str, paths: List[str], known: List[str]) -> None:
    """Fails where something is in the way that was not installed from here."""
    if os.path.lexists(prefix) and not os.path.isdir(prefix):
        raise Failure("%s is no folder" % prefix, NOT_RUN)
    for path in [LIBRARY, *paths]:
        whole = os.path.join(prefix, path)
        if os.path.lexists(whole) and path not in known and not (path == LIBRARY and is_ours(prefix)):
            raise Failure("%s is there already, and was not installed from here" % whole, NOT_RUN)


def put_library(prefix: str, library: Contents) -> None:
    """Puts the library there whole, by a rename."""
    place = os.path.join(prefix, LIBRARY)
    contents.make_folder(os.path.dirname(place))
    with tempfile.TemporaryDirectory(prefix=".vindaesk.", dir=os.path.dirname(place)) as made:
        contents.write(library, os.path.join(made, "new"))
        if os.path.exists(place):
            os.rename(place, os.path.join(made, "old"))
        os.rename(os.path.join(made, "new"), place)


def rest(commands: List[Command], program: str) -> Contents:
    """What is below a prefix besides the library, by its paths there, with what other programs use."""
    date = sources.date(os.path.join(TOP, "VERSION"))
    pages = contents.moved(contents.pages(), PAGES)
    scripts, help_files = contents.scripts(commands, contents.ANY_PYTHON), contents.help_files(commands, date)
    return {**scripts, **help_files, **pages, **contents.for_others(program)}


def install(prefix: str, package: Contents, other: Contents) -> None:
    """Installs the package of tools and the other files, whose paths are below the prefix, in the place of what was
    installed before."""
    known, paths = listed(prefix), sorted(other)
    look(prefix, paths, known)
    made = [it for it in known if it.endswith("/")]
    made += lacking(prefix, [*paths, LIBRARY])
    text = "".join(it + "\n" for it in [*dict.fromkeys(made), *paths])
    try:
        put_library(prefix, {**contents.library(package), LIST: File(text.encode())})
        contents.write(other, prefix)
        take_away(prefix, [it for it in known if it not in other and not it.endswith("/")])
        take_folders_away(prefix, [it for it in known if it.endswith("/")])
    except OSError as error:
        raise Failure("%s cannot be installed: %s" % (error.filename or prefix, error.strerror or error), NOT_RUN)


def take_away(prefix: str, paths: List[str]) -> None:
    """Removes files that are there."""
    for path in paths:
        if os.path.lexists(os.path.join(prefix, path)):
            os.unlink(os.path.join(prefix, path))


def take_folders_away(prefix: str, folders: List[str]) -> None:
    """Removes folders that have nothing in them, the innermost first."""
    for path in sorted(folders, key=len, reverse=True):
        whole = os.path.normpath(os.path.join(prefix, path))
        if os.path.isdir(whole) and not os.listdir(whole):
            os.rmdir(whole)


def remove(prefix: str) -> None:
    """Takes all away that `install` has put below a folder, and the folders that it has made."""
    if not is_ours(prefix):
        raise Failure("nothing is installed at %s" % os.path.join(prefix, LIBRARY), NOT_RUN)
    known = listed(prefix)
    take_away(prefix, [it for it in known if not it.endswith("/")])
    shutil.rmtree(os.path.join(prefix, LIBRARY))
    take_folders_away(prefix, [it for it in known if it.endswith("/")])

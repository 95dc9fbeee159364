"""Finds the cases of folders. Links are followed, and what is reached twice is there once."""
import os
from typing import Dict, Iterable, Iterator, List, NoReturn, Optional, Set, Tuple

from ..common.failures import Failure, NOT_RUN
from . import kinds, problems
from .calls import Limits
from .case import ENDINGS, Case
from .configurations import Configuration


def unreadable(error: OSError) -> NoReturn:
    """A folder that cannot be read would be passed over."""
    raise Failure("%s cannot be read: %s" % (error.filename, error.strerror), NOT_RUN)


def files_in(path: str) -> Iterator[str]:
    """The files of a folder and of those below it, by their names, each folder once; or a single file."""
    if not os.path.exists(path):
        raise Failure("there is no folder %s" % path, NOT_RUN)
    if not os.path.isdir(path):
        yield path
        return
    seen: Set[str] = set()
    for folder, inner, found in os.walk(path, onerror=unreadable, followlinks=True):
        seen.add(os.path.realpath(folder))
        inner[:] = [it for it in sorted(inner) if os.path.realpath(os.path.join(folder, it)) not in seen]
        for name in sorted(found):
            yield os.path.join(folder, name)


def cases_of_file(path: str, given: Optional[List[Configuration]]) -> List[Case]:
    """The cases of a file; where they cannot be known, one that says why."""
    try:
        return kinds.cases_of(path, given)
    except Exception as error:
        ending = kinds.ending_of(path) or ""
        why = problems.of_exception(error, Limits(0, 0)).text
        return [Case(path[: len(path) - len(ending)], ending, broken=why)]


def cases_in(path: str, given: Optional[List[Configuration]] = None) -> Iterator[Case]:
    """The cases of a folder and of those below it, by their names; or those of a single file."""
    base = path if os.path.isdir(path) else os.path.dirname(path) or "."
    for file in files_in(path):
        for case in cases_of_file(file, given):
            yield case._replace(below=os.path.relpath(case.name(), base))


def cases_of_all(paths: Iterable[str], given: Optional[List[Configuration]] = None) -> List[Case]:
    """The cases of several folders. One that is named twice, also by a link to its folder, is there once."""
    folders: Dict[str, str] = {}
    found: Dict[Tuple[str, str], Case] = {}
    for path in paths:
        for case in cases_in(path, given):
            folder, name = os.path.split(case.name())
            if folder not in folders:
                folders[folder] = os.path.realpath(folder or ".")
            found.setdefault((folders[folder], name), case)
    return list(found.values())


def orphans(cases: Iterable[Case]) -> List[str]:
    """Stored files of configurations that the scripts beside them have no longer."""
    used = {case.file(ending) for case in cases for ending in ENDINGS}
    stems = {case.stem for case in cases if case.configuration}
    found = []
    for folder in sorted({os.path.dirname(stem) for stem in stems}):
        for name in sorted(os.listdir(folder or ".")):
            path, ending = os.path.join(folder, name), os.path.splitext(name)[1]
            if ending in ENDINGS and path not in used and path.rpartition("@")[0] in stems:
                found.append(path)
    return found

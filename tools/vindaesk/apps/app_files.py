"""The files of an app: of an APK, of several split APKs, of a folder into which one was unpacked, or of a project's
source. The framework's file may be one of them."""
import contextlib
import os
import re
from typing import Dict, Iterator, List, Optional, Sequence, Union

from ..common.failures import NOT_RUN, Failure
from ..common.messages import printable
from . import archives, binary_xml, source_tree
from .archives import Archive
from .element import Element
from .source_tree import SourceTree

TABLE = "resources.arsc"
MANIFEST = "AndroidManifest.xml"
APK = re.compile(r".*\.(apk|jar|zip)", re.IGNORECASE)
# the largest file of an app that is read, and how much of one is read in all
MAX_FILE = 1 << 24
MAX_TABLE = 1 << 26
MAX_ALL = 1 << 28


class Folder:
    """A folder into which an app was unpacked. What leads out of it is not there."""

    def __init__(self, path: str):
        self.path = path
        self.top = os.path.realpath(path)

    def has(self, name: str) -> bool:
        """Whether there is a file of this name."""
        place = os.path.realpath(os.path.join(self.top, name))
        return place.startswith(self.top + os.sep) and os.path.isfile(place)

    def read(self, name: str, limit: int) -> bytes:
        """The bytes of a file."""
        try:
            with open(os.path.join(self.top, name), "rb") as file:
                found = file.read(limit + 1)
        except OSError as error:
            raise archives.failure(self.path, "'%s' cannot be read: %s" % (name, error.strerror))
        if len(found) > limit:
            raise archives.failure(self.path, "'%s' has more than %d bytes" % (name, limit))
        return found


Source = Union[Archive, Folder, SourceTree]


class AppFiles:
    """The files of an app by the file that they are in, and their names there."""

    def __init__(self, sources: Dict[str, Source]):
        self.sources = sources
        self.left = MAX_ALL
        self.documents: Dict[str, Optional[Element]] = {}

    def has(self, path: str, source: str) -> bool:
        """Whether a file is there."""
        found = self.sources.get(source)
        return found is not None and found.has(path)

    def is_source(self, source: str) -> bool:
        """Whether its files are as people write them, not as the build tools make them."""
        return isinstance(self.sources.get(source), SourceTree)

    def read(self, path: str, source: str, limit: int = MAX_FILE) -> bytes:
        """The bytes of a file that is there."""
        body = self.sources[source].read(path, limit)
        self.left -= len(body)
        if self.left < 0:
            raise Failure("%s: more than %d bytes of its files are needed" % (printable(source), MAX_ALL), NOT_RUN)
        return body

    def document(self, path: str, source: str) -> Optional[Element]:
        """The outermost element of a compiled file, or nothing where the file is not there."""
        key = "%s\0%s" % (source, path)
        found_in = self.sources.get(source)
        if isinstance(found_in, SourceTree):
            return found_in.document(path) if found_in.has(path) else None
        if key not in self.documents:
            found = binary_xml.read(self.read(path, source), path) if self.has(path, source) else None
            self.documents[key] = found
        return self.documents[key]


def name_of_missing(files: AppFiles, number: int) -> str:
    """The name of an id that a source uses, and that is not there."""
    for it in files.sources.values():
        if isinstance(it, SourceTree) and number in it.missing:
            return it.missing[number]
    return ""


def apks_in(path: str) -> List[str]:
    """The APKs in a folder, the base first."""
    found = [it for it in sorted(os.listdir(path)) if it.endswith(".apk")]
    return [os.path.join(path, it) for it in sorted(found, key=lambda it: (not it.startswith("base"), it))]


def files_of(paths: Sequence[str]) -> List[str]:
    """The files and the folders of an app: a folder of APKs counts as these."""
    found: List[str] = []
    for path in paths:
        try:
            is_split = os.path.isdir(path) and not os.path.exists(os.path.join(path, TABLE))
            is_split = is_split and not source_tree.is_source(path)
            apks = apks_in(path) if is_split else []
        except OSError as error:
            raise Failure("%s cannot be read: %s" % (printable(path), error.strerror or error), NOT_RUN)
        found += apks or [path]
    return found


@contextlib.contextmanager
def opened(paths: Sequence[str]) -> Iterator[AppFiles]:
    """The files of an app, for as long as they are read."""
    with contextlib.ExitStack() as stack:
        sources: Dict[str, Source] = {}
        for path in paths:
            if os.path.isdir(path):
                sources[path] = Folder(path)
            else:
                sources[path] = stack.enter_context(archives.opened(path, is_written=False))
        yield AppFiles(sources)

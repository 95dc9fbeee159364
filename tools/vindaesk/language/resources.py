"""The resources of the folder `res` that a source is in: their names, and where they are."""
import os
import re
from typing import Dict, List, Optional, Tuple
from xml.parsers import expat

from ..common import files
from ..common.failures import Failure

FOLDER = re.compile(r"([a-z]+)(-.*)?")
# elements of values that are of another type than their names say
TYPES = {"string-array": "array", "integer-array": "array", "declare-styleable": "styleable"}
MAX_FILES = 20000
MAX_BYTES = 1 << 24

Place = Tuple[str, int]


class Resources:
    """The resources of a folder. They are read anew where a folder or a file of values is another one."""

    known: Dict[str, "Resources"] = {}

    def __init__(self, folder: str):
        self.folder = folder
        self.stamp: object = None
        self.found: Dict[Tuple[str, str], List[Place]] = {}

    @classmethod
    def of(cls, path: str) -> "Optional[Resources]":
        """The resources around a source, where it is in `res/layout` or another such folder."""
        folder = os.path.dirname(os.path.dirname(path))
        if not path or os.path.basename(folder) != "res" or not FOLDER.fullmatch(os.path.basename(os.path.dirname(path))):
            return None
        return cls.known.setdefault(folder, cls(folder))

    def refresh(self) -> None:
        """Reads the resources anew if there are others."""
        listed = []
        for place, folders, names in os.walk(self.folder):
            folders.sort()
            listed += [os.path.join(place, it) for it in sorted(names)]
            if len(listed) > MAX_FILES:
                break
        stamp = [(it, found.st_mtime_ns, found.st_size) for it in listed for found in [os.stat(it)]]
        if stamp == self.stamp:
            return
        self.stamp, self.found = stamp, {}
        for path in listed[:MAX_FILES]:
            kind = FOLDER.match(os.path.basename(os.path.dirname(path)))
            if kind and kind[1] == "values":
                self.read_values(path)
            elif kind:
                self.put(kind[1], os.path.basename(path).split(".")[0], (path, 1))

    def put(self, kind: str, name: str, place: Place) -> None:
        """Adds a place of a resource."""
        self.found.setdefault((kind, name), []).append(place)

    def read_values(self, path: str) -> None:
        """Adds the resources of a file of values, up to where it is no XML."""
        parser = expat.ParserCreate()
        depth = [0]

        def start(element: str, given: Dict[str, str]) -> None:
            depth[0] += 1
            if depth[0] == 2 and "name" in given:
                kind = given.get("type", "") if element == "item" else TYPES.get(element, element)
                self.put(kind, given["name"], (path, parser.CurrentLineNumber))

        def end(_: str) -> None:
            depth[0] -= 1

        parser.StartElementHandler, parser.EndElementHandler = start, end
        try:
            parser.Parse(files.read(path, MAX_BYTES), True)
        except (expat.ExpatError, Failure, LookupError, ValueError):
            return

    def places(self, kind: str, name: str) -> List[Place]:
        """Where a resource is: the files and lines of all configurations."""
        self.refresh()
        return self.found.get((kind, name), [])

    def names(self) -> List[str]:
        """The names of all resources, as sources name them."""
        self.refresh()
        return ["@%s/%s" % it for it in sorted(self.found)]

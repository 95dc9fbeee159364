"""A project's source: the resources in the `res` folders of its modules, without the build tools and their
libraries. They are put into one table, so that all rules of compiled resources hold; what libraries have is not
there."""
import os
import re
from typing import Dict, FrozenSet, Iterator, List, NamedTuple, Optional, Sequence, Tuple

from ..common.failures import NOT_RUN, Failure
from ..common.messages import printable
from ..resources.configuration import Configuration
from ..resources.qualifiers import parse_qualifiers
from ..resources.resources import Resources
from ..resources.values import Type, Value
from . import source_values, source_xml
from .binary_xml import is_compiled
from .element import Element
from .platform_names import ID_OF, NUMBER_OF
from .source_xml import Names
from .table_writer import Writer

APP = 0x7F
# the type of names that are not there, whose ids lead to nothing
MISSING = 0xFF
MAX_FILES = 20000
MAX_BYTES = 1 << 24
MAX_ALL = 1 << 28
MAX_DEPTH = 8
MAX_NAMES = 0xFFFF
SKIPPED = {"build", "node_modules", "out"}
MANIFEST = "AndroidManifest.xml"
TYPES = (
    "anim", "animator", "array", "attr", "bool", "color", "dimen", "drawable", "font", "fraction", "id", "integer",
    "interpolator", "layout", "menu", "mipmap", "navigation", "plurals", "raw", "string", "style", "transition", "xml",
)
FILE_TYPES = set(TYPES) - {"array", "attr", "bool", "dimen", "fraction", "id", "integer", "plurals", "string", "style"}
FOLDER = re.compile(r"([a-z]+)(?:-(.+))?")
PLAIN_NAME = re.compile(r"[A-Za-z_][\w.]*", re.ASCII)
NEW_ID = re.compile(rb"@\+id/([\w.]+)")
THEMED = re.compile(rb"\"\?(?:attr/)?(\w+)\"")
LAUNCHER = b"android.intent.category.LAUNCHER"


class ResourceFile(NamedTuple):
    """A file in a folder of resources: its path in the project, the type and the configuration of its folder, its
    name."""

    path: str
    kind: str
    configuration: Configuration
    name: str


def folders_in(top: str) -> Iterator[str]:
    """The `res` folders of a project: those of its app first, and in a module those of all flavours."""
    found = []
    for place, folders, _ in os.walk(top):
        depth = os.path.relpath(place, top).count(os.sep)
        folders[:] = sorted(it for it in folders if it not in SKIPPED and not it.startswith(".") and depth < MAX_DEPTH)
        if "res" in folders and has_resources(os.path.join(place, "res")):
            found.append(os.path.join(place, "res"))
    return iter(sorted(found, key=lambda it: (rank(it), it)))


def rank(folder: str) -> Tuple[bool, bool, bool, bool]:
    """How far a folder of resources is from those of the app: tests, modules without an activity that starts it, other
    names than `app`, flavours."""
    place = os.path.dirname(folder)
    manifests = [os.path.join(it, MANIFEST) for it in (place, os.path.join(os.path.dirname(place), "main"))]
    starts = any(LAUNCHER in beginning(it) for it in manifests)
    is_app = "%sapp%s" % (os.sep, os.sep) in folder
    return "test" in os.path.basename(place).lower(), not starts, not is_app, os.path.basename(place) != "main"


def beginning(path: str) -> bytes:
    """The bytes of a file, nothing where it is not there."""
    try:
        with open(path, "rb") as file:
            return file.read(MAX_BYTES)
    except OSError:
        return b""


def has_resources(folder: str) -> bool:
    """Whether a folder has folders of resources."""
    try:
        names = os.listdir(folder)
    except OSError:
        return False
    return any(it.split("-")[0] in (*FILE_TYPES, "values") for it in names)


def is_source(path: str) -> bool:
    """Whether a folder is the source of an app: it, or one in it, is a `res` folder of sources. One with a table of
    resources is an app that was unpacked, unless its manifest is a text."""
    if not os.path.isdir(path):
        return False
    if os.path.exists(os.path.join(path, "resources.arsc")):
        manifest = beginning(os.path.join(path, MANIFEST))
        if not manifest or is_compiled(manifest):
            return False
    return has_resources(path) or next(folders_in(path), None) is not None


def names_in(body: bytes) -> List[Tuple[str, str]]:
    """The types and names of which a file makes ids: ids of views, and attributes of the theme."""
    return [(kind, name.decode("ascii", "replace")) for kind, pattern in (("id", NEW_ID), ("attr", THEMED))
            for name in pattern.findall(body)]


class SourceTree(Names):
    """The files of a project's source, with a table of their resources."""

    def __init__(self, path: str, framework: Resources):
        self.path, self.framework = path, framework
        self.top = os.path.realpath(path)
        self.ids: Dict[Tuple[str, str], int] = {}
        self.counts: Dict[str, int] = {}
        self.missing: Dict[int, str] = {}
        self.missing_ids: Dict[str, int] = {}
        self.left = MAX_ALL
        self.elements: Dict[str, Element] = {}
        # the names of which each file makes ids, by its path
        self.made_by: Dict[str, FrozenSet[Tuple[str, str]]] = {}
        self.notes: List[str] = []
        self.files = list(self.all_files())
        self.table = self.written()

    # files

    def has(self, name: str) -> bool:
        """Whether there is a file of this name in the project."""
        if name == MANIFEST:
            return self.manifest() is not None
        place = os.path.realpath(os.path.join(self.top, name))
        return place.startswith(self.top + os.sep) and os.path.isfile(place)

    def read(self, name: str, limit: int) -> bytes:
        """The bytes of a file."""
        path = self.manifest() if name == MANIFEST else os.path.join(self.top, name)
        try:
            with open(path or name, "rb") as file:
                found = file.read(limit + 1)
        except OSError as error:
            raise Failure("%s cannot be read: %s" % (printable(name), error.strerror or error), NOT_RUN)
        self.left -= len(found)
        if len(found) > limit or self.left < 0:
            most = (limit, "") if len(found) > limit else (MAX_ALL, ", with the files before it")
            raise Failure("%s has more than %d bytes%s" % (printable(name), *most), NOT_RUN)
        return found

    def manifest(self) -> Optional[str]:
        """The manifest: the one beside the first folder of resources that has one."""
        for file in self.folders:
            for place in (os.path.dirname(file), os.path.dirname(os.path.dirname(file))):
                if os.path.isfile(os.path.join(place, MANIFEST)) and place.startswith(self.top):
                    return os.path.join(place, MANIFEST)
        return None

    def all_files(self) -> Iterator[ResourceFile]:
        """The files of resources."""
        self.folders = [self.top] if has_resources(self.top) else list(folders_in(self.top))
        count = 0
        for folder in self.folders:
            for name in sorted(os.listdir(folder)):
                found = FOLDER.fullmatch(name)
                place = os.path.join(folder, name)
                if not found or found[1] not in (*FILE_TYPES, "values") or not os.path.isdir(place):
                    continue
                configuration = self.configuration(found[2] or "", place)
                for file in sorted(os.listdir(place)) if configuration is not None else ():
                    count += 1
                    if count > MAX_FILES:
                        why = "%s has more than %d files of resources" % (printable(self.path), MAX_FILES)
                        raise Failure(why, NOT_RUN)
                    stem = file.split(".")[0]
                    path = os.path.relpath(os.path.join(place, file), self.top)
                    if PLAIN_NAME.fullmatch(stem) and os.path.isfile(os.path.join(place, file)) and configuration:
                        yield ResourceFile(path, found[1], configuration, stem)

    def configuration(self, qualifiers: str, place: str) -> Optional[Configuration]:
        """The configuration of a folder; one whose name says none is passed over, and reported."""
        try:
            return parse_qualifiers(qualifiers)
        except Failure as failure:
            self.notes.append("%s is passed over: %s" % (os.path.relpath(place, self.top), failure))
            return None

    # names

    def id_of(self, package: str, kind: str, name: str, is_new: bool) -> int:
        """The id of a name."""
        if package == "android":
            known = NUMBER_OF if kind == "attr" else ID_OF if kind == "id" else {}
            if name in known:
                return known[name]
            found = self.framework.find(name, kind, "android")
            return found if found is not None else self.absent("android:%s/%s" % (kind, name))
        if (kind, name) in self.ids:
            return self.ids[kind, name]
        is_new = is_new or kind in ("attr", "id")
        return self.made(kind, name) if is_new and kind in TYPES else self.absent("%s/%s" % (kind, name))

    def absent(self, name: str) -> int:
        """The id of a name that is not there."""
        if name in self.missing_ids:
            return self.missing_ids[name]
        number = APP << 24 | MISSING << 16 | min(len(self.missing), MAX_NAMES)
        self.missing[number] = name
        self.missing_ids[name] = number
        return number

    def made(self, kind: str, name: str) -> int:
        """A new id."""
        if (kind, name) not in self.ids:
            count = self.counts.get(kind, 0)
            if count >= MAX_NAMES:
                why = "%s has more than %d resources of the type %s" % (printable(self.path), count, kind)
                raise Failure(why, NOT_RUN)
            self.counts[kind] = count + 1
            self.ids[kind, name] = APP << 24 | (TYPES.index(kind) + 1) << 16 | count
        return self.ids[kind, name]

    # the table

    def written(self) -> bytes:
        """The table of all resources: names first, so that each is there before it is used."""
        values = [it for it in self.files if it.kind == "values" and it.path.endswith(".xml")]
        bodies = {it.path: self.read(it.path, MAX_BYTES) for it in values}
        for it in self.files:
            if it.kind != "values":
                self.made(it.kind, it.name)
        for it in values:
            for entry in source_values.read(bodies[it.path], it.path, self):
                if entry.kind in TYPES:
                    self.made(entry.kind, entry.name)
        self.missing.clear()
        self.missing_ids.clear()
        writer = Writer(APP, "app", list(TYPES))
        for it in values:
            for entry in source_values.read(bodies[it.path], it.path, self):
                if entry.kind in TYPES:
                    number = self.ids[entry.kind, entry.name]
                    content = entry.content or Value(Type.INT_BOOLEAN, 0)
                    writer.put(number >> 16 & 0xFF, number & 0xFFFF, entry.name, it.configuration, content)
        for it in self.files:
            if it.kind != "values":
                number = self.ids[it.kind, it.name]
                value = Value(Type.STRING, 0, it.path)
                writer.put(number >> 16 & 0xFF, number & 0xFFFF, it.name, it.configuration, value)
        self.put_ids(writer)
        return writer.written()

    def put_ids(self, writer: Writer) -> None:
        """Adds the ids that layouts make, and the attributes that only they name."""
        for it in self.files:
            if it.kind in ("layout", "drawable", "color") and it.path.endswith(".xml"):
                found = names_in(self.read(it.path, MAX_BYTES))
                self.made_by[it.path] = frozenset(found)
                for kind, name in found:
                    self.made(kind, name)
        for (kind, name), number in sorted(self.ids.items()):
            if kind in ("id", "attr"):
                content = Value(Type.INT_BOOLEAN, 0)
                writer.put(number >> 16 & 0xFF, number & 0xFFFF, name, Configuration(), content)

    def has_path(self, path: str) -> bool:
        """Whether a file or a folder is in the project, or is its folder."""
        return (os.path.realpath(path) + os.sep).startswith(self.top + os.sep)

    def renewed(self, paths: Sequence[str]) -> bool:
        """Takes files and folders that have changed, if that leaves the table as it is: layouts that make the same ids
        as before, and folders that have the same files."""
        known = {os.path.join(self.top, it.path): it for it in self.files}
        found = [known.get(path) if os.path.isfile(path) else None for path in paths if not os.path.isdir(path)]
        layouts = [it for it in found if it and it.kind == "layout" and it.path in self.made_by]
        notes, self.left = list(self.notes), MAX_ALL
        if len(layouts) < len(found) or (len(found) < len(paths) and list(self.all_files()) != self.files):
            return False
        for it in layouts:
            if frozenset(names_in(self.read(it.path, MAX_BYTES))) != self.made_by[it.path]:
                return False
            self.elements.pop(it.path, None)
        self.notes = notes
        return True

    def document(self, name: str) -> Element:
        """The outermost element of a file."""
        if name not in self.elements:
            self.elements[name] = source_xml.read(self.read(name, MAX_BYTES), name, self)
        return self.elements[name]

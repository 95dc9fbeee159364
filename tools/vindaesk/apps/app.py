"""An app: its layouts as the program takes them, each for a device, with what is reported of it."""
import contextlib
import os
from dataclasses import dataclass, field
from typing import Dict, FrozenSet, Iterator, List, NamedTuple, Optional, Sequence, Tuple

from ..common.failures import NOT_RUN, WRONG, Failure
from ..common.messages import printable
from ..layouts import documents
from ..resources.configuration import Configuration
from ..resources.devices import device
from ..resources.framework import PATH as BUILT_IN
from ..resources.resources import File, Resources
from ..resources.themes import Theme
from ..resources.tables import Table as ResourceTable
from . import app_files, app_themes, placing, report, source_tree, writer
from .app_files import MANIFEST, TABLE, AppFiles
from .dex import Classes
from .draft import MATCH, App, Node, colour_of, whole
from .drawables import Drawables
from .element import Element
from .expansion import Expansion, Options, View
from .mapper import Mapper
from .measurer import Measurer
from .report import Record, Sums
from .rules import RULES
from .source_tree import SourceTree
from .styles import Lookup
from .widget_table import Table

CONTENT = 0x01020002
BASE_DENSITY = 160
MAX_SIDE = 4096
ANDROID = "android"
FRAMEWORK = 1
# the table of the framework that was read last, by its file
FRAMEWORKS: Dict[Tuple[str, int, int, int], ResourceTable] = {}


@dataclass(frozen=True)
class Request:
    """How layouts are made: the device; the theme by its name, else that of the manifest; which states drawables and
    colours are in; and what is expanded."""

    device: Configuration
    theme: str = ""
    states: FrozenSet[str] = frozenset()
    options: Options = Options()
    maps: Tuple[str, ...] = ()
    has_window: bool = True
    in_pixels: bool = False

    @property
    def density(self) -> int:
        """The density of the screen on which layouts are laid out."""
        return self.device.density if self.in_pixels else BASE_DENSITY


@dataclass
class Screen:
    """A layout of an app as a script and a compiled file: its name there, the file in the app, width and height of the
    window in pixels, and what is reported. Where it cannot be made `why` says so."""

    name: str
    file: str
    window: Tuple[int, int]
    density: int
    theme: str
    compiled: bytes = b""
    script: bytes = b""
    ids: Dict[int, str] = field(default_factory=dict)
    records: List[Record] = field(default_factory=list)
    why: str = ""
    resources: Optional[Resources] = None

    @property
    def sums(self) -> Sums:
        """How many views there are, and how many are exact."""
        return report.sums_of(self.records)


class Made(NamedTuple):
    """What all layouts of an app share for one request."""

    resources: Resources
    lookup: Lookup
    mapper: Mapper
    expansion: Expansion
    theme: Theme
    theme_name: str


class OpenApp:
    """An app that is open."""

    def __init__(self, files: AppFiles, tables: List[ResourceTable], paths: List[str]):
        self.files, self.tables, self.paths = files, tables, paths
        self.classes = Classes(files)
        self.indexed: Optional[Resources] = None
        self.made: Dict[Request, Made] = {}

    def renewed(self, paths: Sequence[str]) -> bool:
        """Takes files of a project's source that have changed, if its resources stay as they are. Else the app has to be
        opened again."""
        trees = [it for it in self.files.sources.values() if isinstance(it, SourceTree)]
        parts = [[path for path in paths if it.has_path(path)] for it in trees]
        return sum(map(len, parts)) == len(paths) and all([it.renewed(part) for it, part in zip(trees, parts)])

    def resources(self, device: Configuration) -> Resources:
        """The resources for a device."""
        if self.indexed is None:
            self.indexed = Resources(self.tables, device)
            return self.indexed
        return self.indexed.for_device(device)

    def manifest(self) -> Optional[Element]:
        """The manifest, where there is one that can be read."""
        for path in self.paths:
            try:
                found = self.files.document(MANIFEST, path)
            except Failure:
                found = None
            if found is not None:
                return found
        return None

    def layouts(self, device: Configuration) -> List[str]:
        """The names of the layouts."""
        resources = self.resources(device)
        found = [resources.name(it) for it in layout_ids(resources)]
        return [it.entry for it in found if it is not None]

    def shared(self, request: Request) -> Made:
        """What all layouts share."""
        if request not in self.made:
            resources = self.resources(request.device)
            theme, name, lacks_library = app_themes.chosen(request.theme, self.manifest(), resources, self.files)
            lookup = Lookup(resources, lacks_library, app_themes.stand_ins(theme, resources))
            app = App(resources, lookup, Drawables(self.files, resources, request.density, request.states))
            mapper = Mapper(app, Table(sorted(RULES), list(request.maps)), RULES, self.classes)
            expansion = Expansion(self.files, resources, lookup, request.options)
            self.made[request] = Made(resources, lookup, mapper, expansion, theme, name)
        return self.made[request]

    def screen(self, name: str, request: Request, taken: Sequence[str] = ()) -> Screen:
        """A layout for a device. What is wrong with it is in the result."""
        made = self.shared(request)
        window = window_of(request.device, request.density)
        found = Screen(writer.file_name(name, taken), name, window, request.density, made.theme_name)
        found.resources = made.resources
        try:
            file = file_of(name, made.resources)
            found.file = file.path
            views = made.expansion.layout(file, made.theme)
            root = self.root(views, made, request)
            found.records = made.expansion.records
            writer.check(root, file.path)
            placing.place(root, Measurer(window, request.density))
            found.compiled = writer.compiled(root, name)
        except Failure as failure:
            found.records = list(made.expansion.records)
            found.why = str(failure)
            return found
        found.ids = writer.names_of(writer.ids_in(root), made.resources)
        comments = ["%s of %s, with the theme %s" % (found.file, ", ".join(self.paths), made.theme_name)]
        found.script = writer.script(found.name, window, request.density, comments)
        return found

    @staticmethod
    def root(views: List[View], made: Made, request: Request) -> Node:
        """The element around all views: the content of a window, with its background; or, without a window, the view
        itself."""
        if not request.has_window and len(views) == 1:
            return made.mapper.map(views[0], "")
        content = Node("FrameLayout")
        content.attributes = {"layout_width": whole(MATCH), "layout_height": whole(MATCH)}
        content.attributes["id"] = documents.Value(documents.REFERENCE, CONTENT)
        number = made.lookup.number("android:windowBackground")
        item = made.theme.item(number) if number else None
        if item is not None:
            colour = made.mapper.app.drawables.of(item.value, made.theme).colour
            if colour:
                content.attributes["background"] = colour_of(colour)
        content.children = [made.mapper.map(it, "FrameLayout") for it in views]
        return content


def layout_ids(resources: Resources) -> List[int]:
    """The ids of the layouts of an app, or of the framework where there is no app."""
    package = resources.packages.get(resources.app, ANDROID)
    return list(resources.ids("layout", package))


def window_of(device: Configuration, density: int) -> Tuple[int, int]:
    """The window of a device on a screen of a density, in its pixels."""
    sides = [(it * density * 2 + BASE_DENSITY) // (2 * BASE_DENSITY) for it in (device.width, device.height)]
    if not all(1 <= it <= MAX_SIDE for it in sides):
        raise Failure("a window of %d by %d pixels is too large: a side has at most %d" % (*sides, MAX_SIDE), NOT_RUN)
    return sides[0], sides[1]


def file_of(name: str, resources: Resources) -> File:
    """The file of a layout by its name."""
    for package in ("", "android"):
        number = resources.find(name, "layout", package)
        if number is not None:
            break
    if number is None:
        raise Failure("the app has no layout '%s'" % printable(name), WRONG)
    value = resources.value(number)
    if value is None or not value.is_string or not value.text:
        raise Failure("the layout '%s' has no file for this device" % printable(name), WRONG)
    return File(value.text, value.source)


def add_sources(files: AppFiles, parts: List[str], base: str) -> None:
    """Has the sources of a project in the place of their folders."""
    found = [it for it in parts if source_tree.is_source(it)]
    if found:
        framework = Resources([framework_of(files, base)], device())
        for it in found:
            files.sources[it] = SourceTree(it, framework)


def table_of(files: AppFiles, part: str) -> ResourceTable:
    """The resource table of a part of an app, or of the framework."""
    source = files.sources[part]
    if isinstance(source, SourceTree):
        return ResourceTable(source.table, part)
    if not files.has(TABLE, part):
        raise Failure("%s has no resources: there is no %s in it" % (printable(part), TABLE), NOT_RUN)
    return ResourceTable(files.read(TABLE, part, app_files.MAX_TABLE), part)


def framework_of(files: AppFiles, base: str) -> ResourceTable:
    """The table of the framework. It is read once, as long as its file stays: apps that are opened again share it."""
    try:
        found = os.stat(base)
    except OSError:
        return table_of(files, base)
    key = (base, found.st_mtime_ns, found.st_size, found.st_ino)
    if key not in FRAMEWORKS:
        made = table_of(files, base)
        FRAMEWORKS.clear()
        FRAMEWORKS[key] = made
    return FRAMEWORKS[key]


def is_framework(table: ResourceTable) -> bool:
    """Whether a table is that of Android itself."""
    return any(it.id == FRAMEWORK for it in table.packages)


@contextlib.contextmanager
def opened(paths: Sequence[str], framework: Optional[str] = None) -> Iterator[OpenApp]:
    """An app, for as long as it is read: an APK, several split APKs, a folder of these, or one into which an app was
    unpacked; with the framework's file, or without."""
    parts = app_files.files_of(paths)
    base = framework or BUILT_IN
    with app_files.opened([*parts, *([] if base in parts else [base])]) as files:
        add_sources(files, parts, base)
        with_table = [it for it in parts if files.is_source(it) or files.has(TABLE, it)]
        tables = [table_of(files, it) for it in with_table or parts]
        own = [it for it in tables if is_framework(it)] or [framework_of(files, base)]
        yield OpenApp(files, [own[0], *[it for it in tables if it not in own]], parts)



"""What is looked at: a script, a layout's source, a compiled layout, or a layout of an app; in each configuration it is
a script for the program."""
import contextlib
import os
import re
import tempfile
import time
from dataclasses import dataclass, field, replace
from typing import Dict, Iterator, List, Optional, Sequence, Tuple

from ..apps import app, app_files, report, single, source_tree, writer
from ..apps.app import Request
from ..common import files
from ..common.failures import NOT_RUN, WRONG, Failure
from ..common.messages import tool
from ..layouts import compiler, source_reader
from ..lint import refused_lines
from ..program.statuses import MAX_SCRIPT
from ..resources.devices import device
from ..scripts import grammar, names, others, script
from ..scripts.names import Ids
from ..scripts.resource_names import Names
from ..scripts.script import Line, Script
from ..testing import configurations
from ..testing.configurations import Configuration
from . import watcher

PHONE = (360, 640)
# those that each layout is shown in; sides of windows are in dp
STANDARD = (
    Configuration("phone", window=PHONE),
    Configuration("tablet", window=(800, 1280)),
    Configuration("landscape", window=(640, 360)),
    Configuration("right-to-left", window=PHONE, direction="rtl"),
    Configuration("night", window=PHONE, night=True),
    Configuration("200-percent", window=PHONE, dpi=320),
)
AS_IT_IS = Configuration("as-it-is")
COMPILED = source_reader.COMPILED
# an element of a layout's source that the program refuses
REFUSED_ELEMENT = re.compile(r"[^:]*: (.*?) in line ([0-9]+): (.*)", re.DOTALL)
# in the sentence of a value that its attribute cannot have
UNFIT = "does not fit"
LAYOUT_FOLDER = re.compile(r"layout(-.+)?")


@dataclass(frozen=True)
class Place:
    """Where the element of a view begins: a file by its path, line and column from 1, 0 where they are not known; the
    name of the element, and what is not exact of it."""

    file: str
    line: int
    column: int
    element: str
    notes: Tuple[str, ...] = ()


@dataclass
class Layout:
    """A layout in a configuration: its script, and the places of its views by their numbers; of an app the layout as it
    was made, and the direction that the configuration adds."""

    script: Script
    places: Dict[int, Place] = field(default_factory=dict)
    screen: Optional[app.Screen] = None
    direction: str = ""

    def refused(self, found: Sequence[refused_lines.Finding]) -> List[str]:
        """What the program refuses, with its places: of a layout's source those of its elements alone, since no user
        has written the lines that lay it out."""
        if self.places and not self.screen:
            return [text for text in map(self.refused_element, found) if text]
        return ["%s:%d:%d: %s: %s" % it for it in found]

    def refused_element(self, found: refused_lines.Finding) -> str:
        """The place in the source of an element that is refused, and why; nothing of a line that follows from that."""
        said = REFUSED_ELEMENT.fullmatch(found.why)
        if not said:
            return ""
        lines = {it.line: it for it in self.places.values() if it.element == said[1].split(" ")[0]}
        at = lines.get(int(said[2]))
        return "%s:%s:%d: %s: %s: %s" % (found.file, said[2], at.column if at else 1, found.title, said[1], said[3])


class Subject:
    """What is looked at. `close` takes away what it keeps in a folder of its own."""

    def __init__(self, path: str, configurations_of: Sequence[Configuration] = STANDARD):
        self.path = path
        self.configurations = list(configurations_of)
        self.kept = tempfile.TemporaryDirectory(prefix="vindaesk-preview-")

    def title(self) -> str:
        """What the page is called."""
        return os.path.basename(self.path)

    def close(self) -> None:
        """Takes the folder away."""
        self.kept.cleanup()

    def load(self) -> None:
        """Reads what all configurations share, once files have changed."""

    def layout(self, wanted: Configuration) -> Layout:
        """The layout in a configuration. What is wrong is a Failure."""
        raise NotImplementedError

    def files(self) -> List[str]:
        """The files and folders by which it changes."""
        raise NotImplementedError


def kept_ids(known: Names, folder: str) -> Ids:
    """Names, which are also written into a list in a folder, where the program runs."""
    path = os.path.join(folder, names.LIST)
    files.replace(path, known.written())
    return Ids(known, path)


def beside(path: str) -> List[str]:
    """The files beside a script or a layout that have an effect on it."""
    folder, stem = os.path.dirname(path), os.path.splitext(path)[0]
    values = ["resources.lines", "resources-night.lines"]
    others = [names.LIST, configurations.FOLDER, *values]
    return [path, stem + ".toml", *(os.path.join(folder, it) for it in others)]


class ScriptSubject(Subject):
    """A script, as it is, in its own configurations, and in those of all layouts."""

    def __init__(self, path: str, ids: Optional[str] = None):
        self.ids = ids
        super().__init__(path, [AS_IT_IS, *STANDARD])
        self.seen: Dict[str, None] = {}

    def load(self) -> None:
        own = configurations.of_script(self.path)
        taken = {it.name for it in own}
        self.configurations = [AS_IT_IS, *own, *(it for it in STANDARD if it.name not in taken)]

    def layout(self, wanted: Configuration) -> Layout:
        made = configurations.read(self.path, None if wanted == AS_IT_IS else wanted, self.ids, is_strict=False)
        inflated = [words[1].decode("utf-8", "replace") for words in map(script.words_of, made.lines)
                    if words[:1] == [b"inflate"] and len(words) > 1]
        found = [*(it.file for it in made.written if it.file), *(os.path.join(made.folder, it) for it in inflated)]
        self.seen.update(dict.fromkeys(it for it in found if "\0" not in it))
        return Layout(made)

    def files(self) -> List[str]:
        return [*beside(self.path), *([self.ids] if self.ids else []), *self.seen]


class LayoutSubject(Subject):
    """A layout file, compiled or as a source, in a window of its own; `resources.lines` beside it has the values of
    what it names."""

    def __init__(self, path: str, ids: Optional[str] = None):
        super().__init__(path)
        self.ids = ids
        name = os.path.basename(path)
        self.name = name if grammar.matches(grammar.NAME, name) else "layout.xml"
        self.known: Ids = names.NONE
        self.places: Dict[int, Place] = {}

    def load(self) -> None:
        body = files.read(self.path, source_reader.MAX_BYTES)
        listed = names.beside(os.path.dirname(self.path), self.ids).listed
        known = Names(listed.written(), names.LIST)
        self.places = {}
        if not body.startswith(COMPILED):
            body = self.compiled(body, known)
        self.known = kept_ids(known, self.kept.name)
        files.replace(os.path.join(self.kept.name, self.name), body)

    def compiled(self, source: bytes, known: Names) -> bytes:
        """The compiled file of a source; its first fault is a failure."""
        places: List[Place] = []
        nodes, wrong = source_reader.read(source, self.path, known)
        if wrong:
            raise Failure("\n".join(wrong), WRONG)
        for line, column, element in elements_of(source):
            places.append(Place(self.path, line, column, element))
        self.places = dict(enumerate(places, 1))
        return compiler.compiled(nodes)

    def layout(self, wanted: Configuration) -> Layout:
        texts = (b"window %d %d" % PHONE, b"inflate " + self.name.encode(), b"frame")
        lines: Sequence[Line] = [Line(text, self.path, number) for number, text in enumerate(texts, 1)]
        folder = os.path.dirname(self.path)
        if not wanted.night and os.path.isfile(os.path.join(folder, configurations.VALUES)):
            wanted = wanted._replace(values=(configurations.VALUES,))
        lines = configurations.adapted(wanted, lines, folder)
        made = [self.known.expanded(it.text).text for it in lines]
        found = Script(made, self.kept.name, lines, self.known)
        found.file = self.path
        return Layout(found, self.places)

    def files(self) -> List[str]:
        return [*beside(self.path), *([self.ids] if self.ids else [])]


def elements_of(source: bytes) -> Iterator[Tuple[int, int, str]]:
    """Line, column and name of each element of a source that can be read, in order."""
    from xml.parsers import expat

    found: List[Tuple[int, int, str]] = []
    parser = expat.ParserCreate()

    def start(name: str, _: object) -> None:
        found.append((parser.CurrentLineNumber, parser.CurrentColumnNumber + 1, name))

    parser.StartElementHandler = start
    parser.Parse(source, True)
    return iter(found)


class AppSubject(Subject):
    """A layout of an app, by its name: of APKs, of a folder with one, or of a project's source."""

    def __init__(self, paths: Sequence[str], name: str, theme: str = "", framework: Optional[str] = None):
        super().__init__(paths[0])
        self.paths, self.name, self.theme, self.framework = list(paths), name, theme, framework
        self.opened: Optional[app.OpenApp] = None
        self.stack = contextlib.ExitStack()
        self.watched: List[str] = list(paths)
        # the states of the files that were read
        self.read: Dict[str, watcher.Stamp] = {}

    def title(self) -> str:
        return "%s: %s" % (os.path.basename(os.path.normpath(self.path)), self.name)

    def close(self) -> None:
        self.stack.close()
        super().close()

    def load(self) -> None:
        if self.opened and self.is_renewed(self.opened):
            return
        self.stack.close()
        self.opened = None
        begun = time.time_ns()
        self.opened = self.stack.enter_context(app.opened(self.paths, self.framework))
        self.watched = [*self.opened.paths, *self.sources()]
        self.read = watcher.older(watcher.stamps(self.watched), begun)
        if self.name not in self.opened.layouts(device()):
            from ..apps import results

            raise Failure(results.unknown(self.name, self.opened.layouts(device())), NOT_RUN)

    def is_renewed(self, opened: app.OpenApp) -> bool:
        """Whether it is enough to read again what has changed: resources, styles and themes stay."""
        begun, now = time.time_ns(), watcher.stamps(self.watched)
        is_enough = opened.renewed([path for path in now if now[path] != self.read[path]])
        self.read = watcher.older(now, begun)
        return is_enough

    def sources(self) -> List[str]:
        """The files of a project's source, and the folders that have them."""
        found: Dict[str, None] = {}
        for it in self.opened.files.sources.values() if self.opened else ():
            if isinstance(it, source_tree.SourceTree):
                manifest = it.manifest()
                paths = [os.path.join(it.top, file.path) for file in it.files] + ([manifest] if manifest else [])
                found.update(dict.fromkeys(path for file in paths for path in (os.path.dirname(file), file)))
        return list(found)

    def layout(self, wanted: Configuration) -> Layout:
        if self.opened is None:
            raise Failure("%s is not open" % self.path, NOT_RUN)
        request = Request(device(qualifiers_of(wanted)), self.theme, in_pixels=wanted.dpi is not None)
        made = self.opened.screen(self.name, request)
        if made.why:
            raise Failure(made.why, WRONG)
        folder = os.path.join(self.kept.name, wanted.name)
        os.makedirs(folder, exist_ok=True)
        files.replace(os.path.join(folder, made.name + ".xml"), made.compiled)
        lines = script.lines_in(made.script)
        if wanted.direction:
            lines.insert(-1, b"direction v1 " + wanted.direction.encode())
        ids = kept_ids(Names(writer.list_of(made.ids), names.LIST), folder)
        return Layout(Script(lines, folder, ids=ids), self.places_of(made.records), made, wanted.direction or "")

    def places_of(self, records: Sequence[report.Record]) -> Dict[int, Place]:
        """Where the elements of views are, by the report of the layout."""
        tops = [it.top for it in self.opened.files.sources.values() if isinstance(it, source_tree.SourceTree)
                ] if self.opened else []
        found = {}
        for it in records:
            paths = [path for path in (os.path.join(top, it.file) for top in tops) if os.path.isfile(path)]
            notes = tuple("%s%s: %s" % (note.attribute and note.attribute + " ", note.fate.value, note.reason)
                          for note in it.notes)
            place = Place(paths[0] if paths else it.file, it.line, it.column if paths else 0, it.element, notes)
            found.update({number: place for number in (it.number, *it.added) if number})
        return found

    def files(self) -> List[str]:
        return [*self.watched, *([self.framework] if self.framework else [])]


class SourceSubject(AppSubject):
    """The source of a layout that is in no project, as the only layout of one."""

    def __init__(self, path: str, theme: str = "", framework: Optional[str] = None):
        super().__init__([path], single.name_of(path), theme, framework)
        self.project = os.path.join(self.kept.name, "project")
        self.paths = [self.project]

    def title(self) -> str:
        return os.path.basename(self.path)

    def load(self) -> None:
        body = files.read(self.path, source_reader.MAX_BYTES)
        # a value that does not fit has its place; what names a resource may be right
        wrong = [it for it in source_reader.read(body, self.path, Names())[1] if UNFIT in it]
        if wrong:
            raise Failure("\n".join(wrong), WRONG)
        single.put(self.path, body, self.project)
        super().load()

    def places_of(self, records: Sequence[report.Record]) -> Dict[int, Place]:
        """The same of the file that the user knows."""
        return {number: replace(it, file=self.path) for number, it in super().places_of(records).items()}

    def files(self) -> List[str]:
        return [self.path, *([self.framework] if self.framework else [])]


def qualifiers_of(it: Configuration) -> str:
    """A configuration as Android names folders of resources."""
    width, height = it.window or PHONE
    parts = ["ldrtl" if it.direction == "rtl" else "", "w%ddp" % width, "h%ddp" % height, "night" if it.night else ""]
    return "-".join([part for part in parts if part] + (["%ddpi" % it.dpi] if it.dpi else []))


def project_of(path: str) -> Optional[Tuple[str, str]]:
    """The project's folder and the layout's name, where a source is in a folder `res/layout` of one."""
    folder = os.path.dirname(os.path.abspath(path))
    resources = os.path.dirname(folder)
    if not LAYOUT_FOLDER.fullmatch(os.path.basename(folder)) or os.path.basename(resources) != "res":
        return None
    return os.path.dirname(resources), os.path.splitext(os.path.basename(path))[0]


def subject(
    paths: Sequence[str], names_of: Sequence[str], ids: Optional[str] = None, theme: str = "",
    framework: Optional[str] = None
) -> Subject:
    """What some paths and names of layouts mean."""
    path = paths[0]
    if not os.path.exists(path):
        raise Failure("%s cannot be read: No such file or directory" % path, NOT_RUN)
    if os.path.isdir(path) or app_files.APK.fullmatch(path):
        if len(names_of) != 1:
            raise Failure("of an app one layout is shown: name it after %s; %s %s --list prints their names" % (
                path, tool("app"), path), NOT_RUN)
        found = AppSubject(paths, names_of[0], theme, framework)
        # a name that the app has not, and an app that cannot be read, end the call
        found.load()
        return found
    if names_of:
        raise Failure("%s is no app, so that no layout of it has the name '%s'" % (path, names_of[0]), NOT_RUN)
    if path.endswith(".xml"):
        return of_file(path, ids, theme, framework)
    why = others.what_else(path, files.read(path, MAX_SCRIPT))
    if why:
        raise Failure(why, NOT_RUN)
    return ScriptSubject(path, ids)


def of_file(path: str, ids: Optional[str], theme: str, framework: Optional[str]) -> Subject:
    """What the file of a layout means. A source with a list of ids, or with values beside it, is the program's own."""
    is_compiled = files.read(path).startswith(COMPILED)
    project = None if is_compiled else project_of(path)
    if project:
        return AppSubject([project[0]], project[1], theme, framework)
    folder = os.path.dirname(path)
    has_values = any(os.path.isfile(os.path.join(folder, it)) for it in (names.LIST, configurations.VALUES))
    return LayoutSubject(path, ids) if is_compiled or ids or has_values else SourceSubject(path, theme, framework)

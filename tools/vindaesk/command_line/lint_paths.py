"""What the paths of a call of lint mean. A path may mean many layouts; each is a unit, which is looked at by itself, in
a process of its own where there are many."""
import argparse
import contextlib
import difflib
import os
import tempfile
from enum import Enum
from typing import TYPE_CHECKING, Dict, Iterator, List, NamedTuple, Union

from ..common import files
from ..common.failures import NOT_RUN, Failure
from ..layouts import layout_files
from ..lint.subjects import CompiledSubject, ScriptSubject, Subject
from . import arguments

if TYPE_CHECKING:
    from ..apps.app import OpenApp, Request

SCRIPT, LAYOUT = ".script", ".xml"
# how apps end
APPS = (".apk", ".jar", ".zip")
MAX_SOURCE = 1 << 24
# how many names of layouts a message has
MOST_NAMES = 12
RES = "res"


class Kind(Enum):
    """What a unit is."""

    SCRIPT, COMPILED, APP, SOURCE = range(4)


class Unit(NamedTuple):
    """What is looked at by itself: its kind and its path; of an app a layout, and the qualifiers of its device."""

    kind: Kind
    path: str
    layout: str = ""
    qualifiers: str = ""


class Apps:
    """The apps that are open, each of which is opened once."""

    def __init__(self, framework: str):
        self.framework = framework
        self.stack = contextlib.ExitStack()
        self.opened: "Dict[str, OpenApp]" = {}

    def open(self, path: str) -> "OpenApp":
        """The app of a path."""
        from ..apps import app

        if path not in self.opened:
            self.opened[path] = self.stack.enter_context(app.opened([path], self.framework or None))
        return self.opened[path]

    def close(self) -> None:
        """Closes all, so that another process opens its own: two that share an open file would share its offset."""
        self.stack.close()
        self.opened.clear()


def is_app(path: str) -> bool:
    """Whether a path is an app: an APK, a source, or a folder into which one was unpacked, or of split APKs."""
    if not os.path.isdir(path):
        return path.lower().endswith(APPS)
    from ..apps import app_files, source_tree

    has_table = os.path.exists(os.path.join(path, app_files.TABLE))
    return has_table or source_tree.is_source(path) or bool(app_files.apks_in(path))


def in_folder(path: str) -> List[str]:
    """The scripts and layouts of a folder, and of those in it, by their names."""
    found = []
    for place, folders, names in os.walk(path):
        folders.sort()
        for path in (os.path.join(place, it) for it in sorted(names)):
            if path.endswith(SCRIPT) or layout_files.is_compiled(path) or layout_files.is_source(path):
                found.append(path)
    if not found:
        raise Failure("%s has no script, no layout and no app" % path, NOT_RUN)
    return found


def units(given: argparse.Namespace, apps: Apps) -> Iterator[Union[Unit, Failure]]:
    """What a call names, one after the other; what cannot be read is a failure in its place."""
    for path in given.paths:
        try:
            yield from of_path(path, given, apps)
        except Failure as failure:
            yield failure


def of_path(path: str, given: argparse.Namespace, apps: Apps) -> Iterator[Unit]:
    """The units of a path."""
    if is_app(path):
        yield from of_app(path, given, apps)
    elif os.path.isdir(path):
        for it in in_folder(path):
            yield from of_layout(it, given) if it.endswith(LAYOUT) else [Unit(Kind.SCRIPT, it)]
    elif path.endswith(LAYOUT) and os.path.isfile(path):
        yield from of_layout(path, given)
    else:
        yield Unit(Kind.SCRIPT, path)


def of_layout(path: str, given: argparse.Namespace) -> Iterator[Unit]:
    """The file of a layout, for each device."""
    kind = Kind.COMPILED if layout_files.is_compiled(path) else Kind.SOURCE
    yield from (Unit(kind, path, qualifiers=it) for it in given.config or [""])


def of_app(path: str, given: argparse.Namespace, apps: Apps) -> Iterator[Unit]:
    """The layouts of an app, or those that are named, for each device."""
    opened = apps.open(path)
    for qualifiers in given.config or [""]:
        known = opened.layouts(request_of(qualifiers, given).device)
        if not known:
            raise Failure("%s has no layout" % path, NOT_RUN)
        for name in given.layout or known:
            if name not in known:
                near = difflib.get_close_matches(name, known, 1)
                why = "did you mean '%s'?" % near[0] if near else "it has %s" % ", ".join(known[:MOST_NAMES])
                raise Failure("%s: the app has no layout '%s'; %s" % (path, name, why), NOT_RUN)
            yield Unit(Kind.APP, path, name, qualifiers)


def request_of(qualifiers: str, given: argparse.Namespace) -> "Request":
    """How the layouts of an app are made for a device."""
    from ..apps.app import Request
    from ..resources.devices import device

    try:
        return Request(device(qualifiers), given.theme)
    except Failure as failure:
        raise Failure(str(failure), NOT_RUN)


def subjects(unit: Unit, given: argparse.Namespace, apps: Apps) -> Iterator[Subject]:
    """What a unit is: one subject, or a script in each of its configurations that are named."""
    if unit.kind is Kind.SCRIPT:
        words = argparse.Namespace(script=unit.path, ids=given.ids, config=given.config)
        yield from (ScriptSubject(it.script) for it in arguments.scripts(words))
    elif unit.kind is Kind.COMPILED:
        yield CompiledSubject(unit.path, given.ids)
    else:
        yield from of_app_layout(unit, given, apps)


def of_app_layout(unit: Unit, given: argparse.Namespace, apps: Apps) -> Iterator[Subject]:
    """A layout of an app, or the source of one."""
    # loaded where there is an app, since that takes as long as a small script
    from ..lint.app_subjects import AppSubject

    if unit.kind is Kind.APP:
        yield AppSubject(apps.open(unit.path), unit.layout, request_of(unit.qualifiers, given), unit.path)
    else:
        yield from of_source(unit, given, apps)


def of_source(unit: Unit, given: argparse.Namespace, apps: Apps) -> Iterator[Subject]:
    """The source of a layout: in the project whose folder `res` it is in, or else by itself."""
    from ..apps import app, single
    from ..lint.app_subjects import AppSubject

    folder, name = os.path.split(os.path.abspath(unit.path))
    kind, _, qualifiers = os.path.basename(folder).partition("-")
    stem = os.path.splitext(name)[0]
    if kind == "layout" and os.path.basename(os.path.dirname(folder)) == RES:
        project = os.path.relpath(os.path.dirname(os.path.dirname(folder)))
        yield AppSubject(apps.open(project), stem, request_of(unit.qualifiers or qualifiers, given), project)
        return
    with tempfile.TemporaryDirectory() as project:
        plain = single.put(unit.path, files.read(unit.path, MAX_SOURCE), project)
        with app.opened([project], given.framework) as opened:
            yield AppSubject(opened, plain, request_of(unit.qualifiers, given), project, as_file=unit.path)

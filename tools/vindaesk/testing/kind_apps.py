"""Cases that are layouts of an app: NAME.app.toml names the app, its layouts and its configurations; each layout in
each of these is a case, NAME@LAYOUT-CONFIGURATION. Its answer has the bounds of all views.

    app = "trips.apk"
    layouts = ["home", "trip"]
    picture = true
    matrix = [["phone", "tablet"], ["day", "night"]]

    [phone]
    window = [360, 640]
    [tablet]
    window = [800, 1280]
    [day]
    [night]
    night = true

`app` is a path from the folder of the file, or several of a split app. Without `layouts` all of them are cases.
`config` has qualifiers of the device, as "v30", `theme` a theme, `framework` the file of Android's resources. All other
keys are those of configurations.
"""
import contextlib
import functools
import os
import tempfile
from dataclasses import dataclass
from typing import Any, ContextManager, Dict, FrozenSet, Iterator, List, Optional, Tuple

from ..apps import app, app_files, results, writer
from ..apps.app import OpenApp, Request, Screen
from ..common import files, toml
from ..common.failures import WRONG, NOT_RUN, Failure
from ..common.toml import Entry
from ..layouts.app_elements import REPORT
from ..pictures import frames
from ..pictures.png import Picture
from ..resources.devices import device
from ..scripts import names, script
from ..scripts.grammar import guess
from ..scripts.names import Ids
from ..scripts.replies import Refused
from ..scripts.resource_names import Names
from ..scripts.script import Script, Window
from ..views import placement
from ..views.placement import Placed
from . import answers, calls, configurations
from .calls import Call, Limits
from .case import Case, Written, stored
from .configurations import Configuration
from .kind import Inputs, Kind

ENDING = ".app.toml"
TEXTS = ("config", "theme", "framework")
OWN = ("app", "layouts", *TEXTS)
BOUNDS = b"bounds\n"
MAX_FILE = 1 << 16
Stamps = Tuple[Tuple[int, int], ...]
KEPT_OPEN: List[ContextManager[OpenApp]] = []


@dataclass(frozen=True)
class Given:
    """What a file says: the paths of the app, the names of layouts (none for all), qualifiers, a theme, the framework's
    file or nothing, and the configurations."""

    paths: Tuple[str, ...]
    layouts: Tuple[str, ...]
    config: str
    theme: str
    framework: Optional[str]
    configurations: Tuple[Configuration, ...]


def texts_of(entry: Optional[Entry], key: str, file: str) -> Tuple[str, ...]:
    """The text of a key, or its texts."""
    if entry is None:
        return ()
    found = entry.value if isinstance(entry.value, list) else [entry.value]
    if not found or not all(isinstance(it, str) and it for it in found) or (key in TEXTS and len(found) != 1):
        what = "a text" if key in TEXTS else "a text, or an array of texts"
        raise Failure("%s:%d: %s is %s" % (file, entry.line, key, what), NOT_RUN)
    return tuple(str(it) for it in found)


@functools.lru_cache(64)
def given_in(path: str, stamp: Tuple[int, int]) -> Given:
    """What a file says; it is read again once its time or its size is another one."""
    tables = toml.read(files.read(path, MAX_FILE), path)
    entries: Dict[str, Entry] = tables[0].entries
    own = {key: texts_of(entries.pop(key, None), key, path) for key in OWN}
    if not own["app"]:
        raise Failure('%s: it names no app, as app = "home.apk"' % path, NOT_RUN)
    folder = os.path.dirname(path)
    framework = [os.path.join(folder, it) for it in own["framework"]]
    has_tables = len(tables) > 1 or configurations.MATRIX in entries
    found = configurations.of_tables(tables, path, OWN) if has_tables else [plain_of(entries, path)]
    config, theme = ("".join(own[it]) for it in ("config", "theme"))
    apps = tuple(os.path.join(folder, it) for it in own["app"])
    return Given(apps, own["layouts"], config, theme, framework[0] if framework else None, tuple(found))


def plain_of(entries: Dict[str, Entry], path: str) -> Configuration:
    """The configuration of a file without tables."""
    found: Dict[str, Any] = configurations.settings_of(entries, path, (*OWN, configurations.MATRIX))
    return Configuration("", file=path, line=1)._replace(**found)


def read(path: str) -> Given:
    """What a file says."""
    found = os.stat(path)
    return given_in(path, (found.st_mtime_ns, found.st_size))


def qualifiers_of(it: Configuration) -> str:
    """The qualifiers of the device of a configuration."""
    if it.values:
        raise it.failure("values are those of the app's own resources; there is no key `values` here")
    language, _, region = it.locale.partition("-")
    parts = [language, region and "r" + region.lstrip("r"), "ldrtl" if it.direction == "rtl" else ""]
    parts += ["w%ddp-h%ddp" % it.window] if it.window else []
    parts += ["night" if it.night else "", "%ddpi" % it.dpi if it.dpi else ""]
    return "-".join(part for part in parts if part)


def request_of(given: Given, it: Configuration) -> Request:
    """How the layouts of a configuration are made."""
    try:
        return Request(device(qualifiers_of(it), more=given.config), given.theme)
    except Failure as failure:
        raise it.failure(str(failure))


@functools.lru_cache(2)
def opened(process: int, paths: Tuple[str, ...], framework: Optional[str], stamps: Stamps) -> OpenApp:
    """An app, which stays open for all its cases in a process: two that share its files would read them in each other's
    places."""
    made = app.opened(paths, framework)
    KEPT_OPEN.append(made)
    return made.__enter__()


def app_of(given: Given) -> OpenApp:
    """The app of a file."""
    places = [os.stat(it) for it in given.paths if os.path.exists(it)]
    stamps = tuple((it.st_mtime_ns, it.st_size) for it in places)
    return opened(os.getpid(), given.paths, given.framework, stamps)


def files_of(given: Given) -> List[str]:
    """The files on which the layouts of an app depend."""
    found = [given.framework] if given.framework else []
    for path in app_files.files_of(given.paths):
        if os.path.isdir(path):
            for folder, inner, names_in in os.walk(path):
                inner.sort()
                found += [os.path.join(folder, it) for it in sorted(names_in)]
        else:
            found.append(path)
    return found


@contextlib.contextmanager
def made(case: Case) -> Iterator[Script]:
    """The script of a case, in a folder that has its layout for as long as it is carried out."""
    screen = screen_of(case)
    with tempfile.TemporaryDirectory() as folder:
        files.replace(os.path.join(folder, screen.name + ".xml"), screen.compiled)
        files.replace(os.path.join(folder, REPORT), results.written([screen]))
        ids = Ids(Names(writer.list_of(screen.ids), names.LIST), names.LIST)
        yield Script(script.lines_in(screen.script + BOUNDS), folder, ids=ids)


def screen_of(case: Case) -> Screen:
    """The layout of a case. One that cannot be made is a Failure."""
    given = read(case.source())
    layout, it = case_of(case, given)
    found = app_of(given).screen(layout, request_of(given, it))
    if found.why:
        raise Failure("%s: %s" % (case.name(), found.why), WRONG)
    return found


def case_of(case: Case, given: Given) -> Tuple[str, Configuration]:
    """The layout and the configuration of a case."""
    assert case.configuration is not None
    name = case.configuration.name
    for layout in layouts_of(given):
        for it in given.configurations:
            if name == named(layout, it):
                return layout, it
    raise Failure("%s has no case %s" % (case.source(), name), NOT_RUN)


def named(layout: str, it: Configuration) -> str:
    """The name of a layout in a configuration."""
    return "%s-%s" % (layout, it.name) if it.name else layout


def layouts_of(given: Given) -> Tuple[str, ...]:
    """The names of the layouts of a file."""
    if given.layouts:
        return given.layouts
    return tuple(app_of(given).layouts(request_of(given, given.configurations[0]).device))


class Apps(Kind):
    """NAME.app.toml."""

    ENDING = ENDING

    def cases_of(self, path: str, given: Optional[List[Configuration]]) -> List[Case]:
        found = read(path)
        known = app_of(found).layouts(request_of(found, found.configurations[0]).device)
        for layout in found.layouts:
            if layout not in known:
                near = guess(layout, tuple(known)) or "; there are %s" % ", ".join(known[:20])
                raise Failure("%s: the app has no layout '%s'%s" % (path, layout, near), NOT_RUN)
        stem = path[: -len(ENDING)]
        return [Case(stem, ENDING, it._replace(name=named(layout, it)))
                for layout in layouts_of(found) for it in found.configurations]

    def written(self, case: Case, limits: Limits) -> Written:
        with made(case) as of:
            plain, status = calls.answered(Call(["run"], script.joined(of.lines), of.folder), limits)
            return Written(answers.of_run(plain, of), status, plain)

    def inputs(self, case: Case, beside: FrozenSet[bytes]) -> Inputs:
        given = read(case.source())
        name = case.configuration.name if case.configuration else ""
        return Inputs((stored(case.source()), name.encode()), files_of(given))

    def picture(self, case: Case, size: Optional[Window]) -> Picture:
        with made(case) as of:
            *_, last = frames.frames(of, Refused(of, is_silent=True))
            return frames.picture_of(last)

    def views(self, case: Case) -> List[Placed]:
        with made(case) as of:
            return placement.views_of(of, Refused(of, is_silent=True))

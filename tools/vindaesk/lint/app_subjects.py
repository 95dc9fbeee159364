"""Layouts of apps as they are linted. Loaded where there is an app, since that takes as long as a small script."""
import contextlib
import dataclasses
import os
import re
import tempfile
from typing import Dict, Iterator, List, Optional

from ..apps import sources, writer
from ..apps.app import OpenApp, Request, Screen
from ..apps.app_files import AppFiles
from ..apps.source_tree import SourceTree
from ..common import files
from ..common.failures import WRONG, Failure
from ..resources.devices import device
from ..scripts import names, script
from ..scripts.names import Ids
from ..scripts.replies import Refused
from ..scripts.resource_names import Names
from ..scripts.script import Script
from ..views.facts import Place, Source
from . import source_faults
from .findings import Finding
from .matrix import RTL, Configuration
from .subjects import Laid, Subject, run_of

# how a path in an archive is written
IN_ARCHIVE = "!/"
# what `source_xml` says of a file that is no XML
NO_XML = re.compile(
    r"(?P<file>.*) cannot be read: (?P<why>it is no XML: )"
    r"line (?P<line>\d+), column (?P<column>\d+): (?P<what>.*)"
)


class ScreenSubject(Subject):
    """A layout of an app that was made for a device. `shown` is the path of the app as findings have it, empty where
    they have the paths in the app; `as_file` of a single source the path that is meant by the file in the app; `files`
    those of the app, where resources that they lack are to be found."""

    def __init__(
        self, screen: Screen, shown: str = "", as_file: Optional[str] = None, files: Optional[AppFiles] = None
    ):
        self.screen, self.shown, self.as_file = screen, shown, as_file
        found = files.sources.values() if files and as_file is None else ()
        self.trees = [it for it in found if isinstance(it, SourceTree)]
        self.file = self.path(screen.file)

    def path(self, file: str) -> str:
        """The path of a file of the app."""
        if self.as_file is not None and "/res/layout" in "/" + file:
            return self.as_file
        if not self.shown:
            return file
        return os.path.normpath(os.path.join(self.shown, file)) if os.path.isdir(self.shown) else self.shown + IN_ARCHIVE + file

    def in_words(self, why: str) -> str:
        """Why there is no layout, with the path and, of what is no XML, the place that the user knows."""
        found = NO_XML.fullmatch(why)
        if found:
            return "%s: %s" % (Place(self.path(found["file"]), int(found["line"]), int(found["column"])), found["why"] + found["what"])
        return "%s: %s" % (self.file, why)

    def sources(self) -> Dict[int, Source]:
        """The elements of the layout, with the paths that the user knows."""
        found = sources.of_screen(self.screen)
        for number, it in found.items():
            places = tuple(place._replace(file=self.path(place.file)) for place in it.places)
            found[number] = it._replace(places=places)
        return found

    def broken(self) -> List[Finding]:
        """What is broken in the sources, with the paths that the user knows."""
        found: List[Finding] = []
        for it in self.screen.records:
            places = (Place(it.file, it.line, it.column), *it.includes)
            shown = tuple(place._replace(file=self.path(place.file)) for place in places)
            found += source_faults.found_in(it, shown, self.trees, it.ignored)
        return found

    @contextlib.contextmanager
    def laid_out(self, wanted: Configuration) -> Iterator[Laid]:
        """The layout, in a folder of its own; of the configuration the direction counts alone."""
        screen = self.screen
        if screen.why:
            raise Failure(self.in_words(screen.why), WRONG)
        with tempfile.TemporaryDirectory() as folder:
            files.replace(os.path.join(folder, screen.name + ".xml"), screen.compiled)
            ids = Ids(Names(writer.list_of(screen.ids), names.LIST), names.LIST)
            made = Script(script.lines_in(screen.script), folder, ids=ids)
            refused = Refused(made, is_silent=True)
            laid = run_of(made, Configuration(direction=wanted.direction), refused)
            if refused.count and not laid.cycles:
                raise Failure("%s: the program refuses the layout: %s" % (self.file, refused.first()), WRONG)
            # lines that only this tool knows are no places
            for it in laid.page.placed if laid.page else ():
                it.view.origin = None
            yield laid._replace(sources=self.sources(), broken=self.broken())


class AppSubject(Subject):
    """A layout of an app that is open, with the paths of `ScreenSubject`."""

    def __init__(self, opened: OpenApp, layout: str, request: Request, shown: str, as_file: Optional[str] = None):
        self.opened, self.layout, self.request, self.shown, self.as_file = opened, layout, request, shown, as_file
        self.file = as_file or shown

    def request_for(self, wanted: Configuration) -> Request:
        """How the layout is made in a configuration."""
        words = ["ldrtl" if wanted.direction == RTL else "", "w%ddp" % wanted.width if wanted.width else "",
                 "night" if wanted.is_night else "", "%ddpi" % wanted.density if wanted.density else ""]
        return dataclasses.replace(self.request, device=device("-".join(filter(None, words)), self.request.device))

    @contextlib.contextmanager
    def laid_out(self, wanted: Configuration) -> Iterator[Laid]:
        """The layout for the device of a configuration."""
        request = self.request_for(wanted)
        subject = ScreenSubject(self.opened.screen(self.layout, request), self.shown, self.as_file, self.opened.files)
        self.file = subject.file
        with subject.laid_out(wanted) as laid:
            yield laid._replace(name=wanted.named(request.device.density, request.device.width))

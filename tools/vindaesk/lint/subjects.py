"""What is linted: a script, or a compiled layout; app_subjects.py has layouts of apps. Each is laid out in one
configuration after the other."""
import contextlib
import os
import tempfile
from typing import Dict, Iterator, List, NamedTuple, Optional, Sequence

from ..common import files
from ..common.failures import WRONG, Failure
from ..scripts import names, script
from ..scripts.replies import Part, Refusal, Refused
from ..scripts.script import Line, Script
from ..views import placement, screens
from ..views.facts import Place, Source
from ..views.screens import Screen
from .asking import Run
from .findings import Finding
from .matrix import Configuration, width_in_dp
from .page import Page

CYCLE = 18


class Laid(NamedTuple):
    """A subject in a configuration: the page, none where the tree was refused; the name of the configuration; what was
    refused for a cycle, by the number of its line; the sources of views that are known without lines; and what is
    broken in sources."""

    page: Optional[Page]
    name: str
    cycles: Dict[int, Refusal]
    sources: Dict[int, Source]
    broken: Sequence[Finding] = ()


class Subject:
    """What is linted: its file, and how it is laid out."""

    file = ""

    @contextlib.contextmanager
    def laid_out(self, wanted: Configuration) -> Iterator[Laid]:
        """The subject in a configuration, for as long as questions may be asked about it."""
        raise NotImplementedError

    def place_of(self, number: int) -> Optional[Place]:
        """The place of a line that was refused; nothing where it is no user's line."""
        return None

    def status(self) -> int:
        """The status by what was refused."""
        return 0

    def refusals(self) -> List[str]:
        """The lines that were refused, and why, a sentence each."""
        return []


def with_direction(parts: List[Part], direction: str) -> List[Part]:
    """The parts of a script with a line that sets the direction of the root, right after the one that makes it."""
    found: List[Part] = []
    for part in parts:
        found.append(part)
        if direction and part.lines and script.is_root(part.lines[-1]):
            found.append(Part([b"direction v1 %s" % direction.encode()]))
            direction = ""
    return found


def run_of(made: Script, wanted: Configuration, refused: Refused) -> Laid:
    """A script in a configuration."""
    parts, dpi = screens.parts_on(made.lines, Screen(wanted.density, wanted.width))
    parts = with_direction(parts, wanted.direction)
    window = script.last_window([line for part in parts for line in part.lines]) or (1, 1)
    name = wanted.named(dpi, width_in_dp(window[0], dpi))
    try:
        placed = placement.views_after(parts, made, refused)
    except Failure as failure:
        if failure.status != WRONG or not cycles_of(refused):
            raise
        return Laid(None, name, cycles_of(refused), {})
    return Laid(Page(Run(tuple(parts), made.folder), placed, window, dpi), name, cycles_of(refused), {})


def cycles_of(refused: Refused) -> Dict[int, Refusal]:
    """The lines that were refused for a cycle, by their numbers."""
    return {number: refusal for (number, _), refusal in refused.known.items() if refusal.number == CYCLE}


class ScriptSubject(Subject):
    """A script; refused lines are reported."""

    def __init__(self, made: Script):
        self.made = made
        self.file = files.named(made.file)
        self.refused = Refused(made)

    @contextlib.contextmanager
    def laid_out(self, wanted: Configuration) -> Iterator[Laid]:
        """The script as it is, with its densities, windows and direction in the place of its own."""
        if wanted.is_night or wanted.qualifiers:
            raise Failure("%s: a script has no night of its own: --config names one of its configurations" % self.file)
        yield run_of(self.made, wanted, self.refused)

    def place_of(self, number: int) -> Optional[Place]:
        """The place of a line of the script."""
        at = self.made.place(number)
        return Place(files.named(at.file), at.number, 1)

    def status(self) -> int:
        """1 where a line was refused."""
        return self.refused.end()

    def refusals(self) -> List[str]:
        """The lines that were refused."""
        return [self.refused.sentence(number, it) for (number, _), it in self.refused.known.items()]


class CompiledSubject(Subject):
    """A compiled layout, in a window of 360 by 640 dp, with the values of `resources.lines` and the names of `ids.txt`
    beside it."""

    def __init__(self, path: str, ids: Optional[str] = None):
        self.file = path
        self.body = files.read(path)
        folder = os.path.dirname(path)
        values = os.path.join(folder, "resources.lines")
        self.values = script.lines_in(files.read(values)) if os.path.isfile(values) else []
        self.ids = names.beside(folder, ids)

    @contextlib.contextmanager
    def laid_out(self, wanted: Configuration) -> Iterator[Laid]:
        """The layout, in a folder of its own."""
        if wanted.is_night or wanted.qualifiers:
            raise Failure("%s: a compiled layout has no night; its app has" % self.file)
        with tempfile.TemporaryDirectory() as folder:
            files.replace(os.path.join(folder, "layout.xml"), self.body)
            lines = [b"window 360 640", *self.values, b"inflate layout.xml", b"frame"]
            made = Script(lines, folder, [Line(it, self.file, 1) for it in lines], self.ids)
            refused = Refused(made, is_silent=True)
            try:
                laid = run_of(made, wanted, refused)
            except Failure as failure:
                why = refused.first().partition(": ")[2] or str(failure)
                raise Failure("%s: %s" % (self.file, why), failure.status)
            yield laid._replace(sources=self.sources(laid.page))

    def sources(self, page: Optional[Page]) -> Dict[int, Source]:
        """The elements of the file."""
        found = {}
        for it in page.placed if page else ():
            source = it.view.source
            if source is not None:
                place = Place(self.file, source.places[0].line)
                found[it.view.number] = source._replace(places=(place,))
        return found

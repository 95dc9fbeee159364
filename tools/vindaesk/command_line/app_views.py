"""A layout of an app as a picture, a page, a tree, and the findings of a lint, which the program's replies give."""
import contextlib
import os
import tempfile
from typing import Iterator, List

from ..apps import results, writer
from ..apps.app import Screen
from ..common import files
from ..common.failures import WRONG, Failure
from ..layouts.app_elements import REPORT
from ..lint import formats, linter, rules
from ..lint.matrix import Configuration
from ..lint.registry import Severity
from ..lint.app_subjects import ScreenSubject
from ..pages import page
from ..pictures import frames, png
from ..scripts import names, script
from ..scripts.names import Ids
from ..scripts.replies import Refused
from ..scripts.resource_names import Names
from ..scripts.script import Script
from ..views import placement


@contextlib.contextmanager
def script_of(screen: Screen) -> Iterator[Script]:
    """The script of a layout with the names of its ids, in a folder that has its file and its report for as
    long as it is carried out."""
    with tempfile.TemporaryDirectory() as folder:
        files.replace(os.path.join(folder, screen.name + ".xml"), screen.compiled)
        files.replace(os.path.join(folder, REPORT), results.written([screen]))
        ids = Ids(Names(writer.list_of(screen.ids), names.LIST), names.LIST)
        yield Script(script.lines_in(screen.script), folder, ids=ids)


def check(screen: Screen, refused: Refused) -> None:
    """A layout that the program refuses is a failure."""
    if refused.end():
        raise Failure("%s: the program refuses the layout" % screen.file, WRONG)


def picture(screen: Screen, scale: int = 1) -> bytes:
    """The picture of a layout, as a PNG file."""
    with script_of(screen) as made:
        refused = Refused(made)
        last = list(frames.frames(made, refused))[-1]
    check(screen, refused)
    return png.written(frames.picture_of(last), scale)


def whole_page(screen: Screen) -> bytes:
    """The page of a layout."""
    with script_of(screen) as made:
        refused = Refused(made)
        # script and compiled file are gone once the page is there
        found = page.recorded(made, refused, 1, (files.named(made.file), screen.name + ".xml"))
    check(screen, refused)
    return page.page(screen.name, found)


def tree_lines(screen: Screen) -> List[str]:
    """The views of a layout, a line each, with its element and the line of its source."""
    with script_of(screen) as made:
        refused = Refused(made)
        views = placement.views_of(made, refused)
    check(screen, refused)
    return [placement.text_line(it) for it in views]


def lint_lines(screen: Screen) -> List[str]:
    """What is wrong with a layout, a line each."""
    wanted = {name: it for name, it in rules.RULES.items() if it.severity >= Severity.WARNING}
    found = linter.found_in(ScreenSubject(screen), [Configuration()], wanted)
    return [formats.line_of(it) for it in found]

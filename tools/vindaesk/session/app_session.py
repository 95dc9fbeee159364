"""A session over a layout of an app.

    from vindaesk import session

    with session.app("app.apk", layout="home", locale="de", night=True) as s:
        print(s.tap(s.id("book")))
        for note in s.notes():
            print(note)

docs/APPS.md says what is exact of such a layout, and what is not."""
import contextlib
import os
import tempfile
from typing import Dict, Iterable, Iterator, List, Optional, Sequence, Tuple, Union

from ..apps import app as apps
from ..apps import report, sources, writer
from ..apps.app import Request, Screen
from ..apps.expansion import Options
from ..apps.states import named
from ..common import files
from ..common.failures import NOT_RUN, Failure
from ..resources.devices import device
from ..scripts import names, script
from ..scripts.grammar import guess
from ..views.uiautomator import description_in
from . import checked
from .errors import NotFound
from .session import SECONDS, Session


class AppSession(Session):
    """A session whose tree is a layout of an app, laid out in its window. `screen` has the report of the layout."""

    def __init__(self, folder: str, screen: Screen, seconds: float = SECONDS):
        """Carries out the script of the layout, whose file is in the folder."""
        super().__init__(folder, seconds=seconds)
        self.screen = screen
        for line in script.lines_in(screen.script):
            if script.words_of(line):
                self.line(line.decode())

    def id(self, name: str) -> str:
        """The id of a view by its name in the app, as lines name it. A name that no view has is a NotFound."""
        checked.text("name", name)
        for number, it in self.screen.ids.items():
            if it.rpartition("/")[2] == name:
                return "@%08x" % number
        known = tuple(it.rpartition("/")[2] for it in self.screen.ids.values())
        raise NotFound("no view of the layout has the id '%s'%s" % (name, guess(name, known)))

    def descriptions(self) -> Dict[int, str]:
        """The content descriptions of the layout, by the numbers of their views."""
        found = {number: description_in(it) for number, it in sources.of_screen(self.screen).items()}
        return {number: text for number, text in found.items() if text}

    def notes(self) -> List[str]:
        """What of the layout is not exact, a line each."""
        return report.lines_of(self.screen.records)


def qualifiers_of(locale: str, night: bool, land: bool, density: int) -> str:
    """The qualifiers of a device; a locale is `de` or `de-DE`, and the density a number of dots an inch."""
    language, _, region = locale.partition("-")
    parts = [language, region and "r" + region, "land" if land else "", "night" if night else ""]
    parts.append("%ddpi" % density if density else "")
    return "-".join(it for it in parts if it)


@contextlib.contextmanager
def app(
    path: Union[str, Sequence[str]],
    layout: str,
    *,
    locale: str = "",
    night: bool = False,
    land: bool = False,
    density: int = 0,
    config: str = "",
    theme: str = "",
    framework: Optional[str] = None,
    pixels: bool = False,
    states: Union[str, Iterable[str]] = (),
    options: Options = Options(),
    maps: Tuple[str, ...] = (),
    seconds: float = SECONDS,
) -> Iterator[AppSession]:
    """A session over a layout of an app, for as long as it is used: an APK, several split ones, or a folder.
    `config` has further qualifiers of the device, as `v30`, in the order of Android's folders; `states` are names, as
    "pressed,checked" or a list. What is wrong with the app or the layout is a Failure."""
    wanted = device(qualifiers_of(locale, night, land, density), more=config)
    request = Request(wanted, theme, named(states), options, maps, in_pixels=pixels)
    with apps.opened([path] if isinstance(path, str) else list(path), framework) as opened:
        screen = opened.screen(layout, request)
    if screen.why:
        raise Failure(screen.why, NOT_RUN)
    with tempfile.TemporaryDirectory() as folder:
        files.replace(os.path.join(folder, screen.name + ".xml"), screen.compiled)
        files.replace(os.path.join(folder, names.LIST), writer.list_of(screen.ids))
        made = AppSession(folder, screen, seconds)
        try:
            yield made
        finally:
            made.close()

"""The page of docs/play in headless Chromium, for the checks of it.

The page has the module of web_module.py, without which they are skipped.
"""
import base64
import contextlib
import functools
import json
import os
import tempfile
from typing import Callable, Dict, Iterator, List, NamedTuple, Sequence, Tuple

import chromium
from running import TOP, Skipped
from vindaesk.building import play
from vindaesk.common import files

LOADER = os.path.join(TOP, "bindings", "web", "vindaesk.mjs")
# how long a script may take where the machine is busy, in milliseconds
PATIENCE = 100000


class Case(NamedTuple):
    """A script with its files; of a stack of windows where its form is `stack`."""

    script: bytes
    held: Dict[str, bytes]
    form: str = "run"


@functools.lru_cache(maxsize=None)
def page() -> bytes:
    """The page, with the module that there is."""
    module = os.environ.get("VINDAESK_WASM") or play.MODULE
    for path in (module, LOADER):
        if not os.path.exists(path):
            raise Skipped(path)
    if not chromium.COMMAND:
        raise Skipped("chromium")
    return play.page(files.read(module))


@contextlib.contextmanager
def opened(width: int = 1280, is_dark: bool = False, hash_: str = "") -> Iterator[chromium.Browser]:
    """A browser that shows the page, after its first run."""
    made = page()
    with tempfile.TemporaryDirectory() as folder, chromium.Browser(width, 900, is_dark) as browser:
        path = os.path.join(folder, "play.html")
        files.replace(path, made)
        browser.open(path + hash_)
        browser.until("globalThis.play && play.runs > 0")
        browser.value("play.carrier.most = %d" % PATIENCE)
        yield browser


def after(browser: chromium.Browser, act: Callable[[], object], count: int = 1) -> None:
    """Waits until the page has carried out scripts after something was done."""
    before = browser.value("play.runs")
    act()
    browser.until("play.runs >= %d" % (before + count))


def given(browser: chromium.Browser, case: Case) -> None:
    """Has the page carry out a script with its files."""
    held = {name: play.text(it) for name, it in case.held.items()}
    decoded = "(it => Uint8Array.from(atob(it), it => it.charCodeAt(0)))"
    files_of = "Object.fromEntries(Object.entries(%s).map(([name, it]) => [name, %s(it)]))" % (json.dumps(held), decoded)
    words = (decoded, play.text(case.script), files_of, case.form)
    after(browser, lambda: browser.value("play.open(%s('%s'), %s, '%s')" % words))


def encoded(browser: chromium.Browser, name: str) -> bytes:
    """An array of bytes of the page."""
    return base64.b64decode(browser.value("btoa(Array.from(%s, it => String.fromCharCode(it)).join(''))" % name))


def text(browser: chromium.Browser, name: str) -> str:
    """The text of an element, by its id."""
    found: str = browser.value("document.getElementById('%s').textContent" % name)
    return found


def texts(browser: chromium.Browser, selector: str) -> List[str]:
    """The texts of some elements."""
    found: List[str] = browser.value("[...document.querySelectorAll('%s')].map(it => it.textContent)" % selector)
    return found


def middle(browser: chromium.Browser, x: float, y: float, width: int, height: int) -> Tuple[float, float]:
    """The place in the window of a point of a picture of this size."""
    browser.value("document.getElementById('stage').scrollIntoView({block: 'center'})")
    left, top, right, bottom = (browser.value("document.getElementById('stage').getBoundingClientRect().%s" % it)
                                for it in ("left", "top", "right", "bottom"))
    return left + (right - left) * x / width, top + (bottom - top) * y / height


def first_difference(pairs: Sequence[Tuple[object, object]]) -> str:
    return next(("%r in place of %r" % pair for pair in pairs if pair[0] != pair[1]), "")

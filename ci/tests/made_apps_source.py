"""Small apps for tests: a folder of sources, made of the texts of layouts and of values."""
import contextlib
import os
from typing import Any, Dict, Iterator, List, Tuple, Union

from vindaesk.apps import app
from vindaesk.apps.app import OpenApp, Request, Screen
from vindaesk.apps.draft import Node
from vindaesk.apps.expansion import Options
from vindaesk.apps.report import Record
from vindaesk.layouts import documents
from vindaesk.resources.devices import device

# an element of the output: its class, its attributes, what is in it
Tree = Tuple[str, Dict[str, Any], List[Any]]
ANDROID = 'xmlns:android="http://schemas.android.com/apk/res/android" '
SPACES = ANDROID + 'xmlns:app="http://schemas.android.com/apk/res-auto" xmlns:tools="http://schemas.android.com/tools"'


def put(folder: Any, path: str, text: Union[str, bytes]) -> None:
    """Writes a file of an app."""
    place = os.path.join(str(folder), path)
    os.makedirs(os.path.dirname(place), exist_ok=True)
    with open(place, "wb") as file:
        file.write(text if isinstance(text, bytes) else text.encode())


def source(folder: Any, layouts: Dict[str, str], values: str = "", **others: str) -> str:
    """Writes the source of an app: layouts by their names, in which `SPACES` is put into the outermost element; the
    resources of a values file; and further files by their paths, with `__` for `/`."""
    for name, text in layouts.items():
        begin = text.index(">") if "/>" not in text[: text.index(">") + 1] else text.index("/>")
        put(folder, "res/layout/%s.xml" % name, text[:begin] + " " + SPACES + text[begin:])
    put(folder, "res/values/values.xml", "<resources>%s</resources>" % values)
    for path, text in others.items():
        put(folder, path.replace("__", "/") + ".xml", text)
    return str(folder)


@contextlib.contextmanager
def opened(folder: Any, layouts: Dict[str, str], values: str = "", **others: str) -> Iterator[OpenApp]:
    """An app of such a source."""
    with app.opened([source(folder, layouts, values, **others)]) as it:
        yield it


def request(qualifiers: str = "mdpi", **options: Any) -> Request:
    """A request without a window, on a screen where a dp is a pixel."""
    return Request(device(qualifiers), options=Options(**options), has_window=False)


def screen(
    folder: Any, text: str, values: str = "", qualifiers: str = "mdpi", options: Any = None, **others: Any
) -> Screen:
    """The screen of an app with one layout."""
    with opened(folder, {"main": text}, values, **others) as it:
        return it.screen("main", request(qualifiers, **(options or {})))


def shown(value: documents.Value) -> Any:
    """A value of the output: a number of pixels where it is a length in pixels or dp."""
    if value.kind == documents.DIMENSION:
        assert value.word >> 4 & 3 == 0, "a length with a point"
        return (value.word >> 8) - (value.word >> 31 << 24)
    if value.kind == documents.STRING:
        return value.text
    if value.kind in documents.COLOURS:
        return "#%08x" % value.word
    if value.kind == documents.BOOLEAN:
        return value.word != 0
    return value.word - (value.word >> 31 << 32)


def tree(node: Node) -> Tree:
    """An element of the output as a tuple: its class, its attributes, what is in it."""
    return node.kind, {name: shown(it) for name, it in node.attributes.items()}, [tree(it) for it in node.children]


def mapped(
    folder: Any, text: str, values: str = "", qualifiers: str = "mdpi", options: Any = None, **others: Any
) -> Tuple[Tree, List[Record]]:
    """The element of a layout in the output, before it is written, and the rows of its report."""
    with opened(folder, {"main": text}, values, **others) as it:
        wanted = request(qualifiers, **(options or {}))
        made = it.shared(wanted)
        views = made.expansion.layout(app.file_of("main", made.resources), made.theme)
        return tree(it.root(views, made, wanted)), made.expansion.records

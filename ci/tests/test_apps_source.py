"""A project's source gives the same layouts as the app that Android's build tools make of it."""
import os
from typing import Any, Dict, Iterator, List, Tuple

import pytest
from vindaesk.apps import app
from vindaesk.apps.app import Request
from vindaesk.apps.draft import Node
from vindaesk.layouts import documents
from vindaesk.resources.devices import device
from vindaesk.resources.resources import Resources

TOP = os.path.dirname(os.path.dirname(os.path.dirname(os.path.realpath(__file__))))
TRIPS = os.path.join(TOP, "examples", "trips")


def raw(value: documents.Value) -> Any:
    """A value of the output."""
    return value.text if value.text is not None else (value.kind if value.kind in (3, 5) else 0, value.word)


def shown(node: Node, resources: Resources) -> Any:
    """An element of the output before it is written, with names for ids."""
    attributes: Dict[str, Any] = {}
    for name, it in node.attributes.items():
        found = resources.name(it.word) if it.kind == 1 else None
        attributes[name] = "%s/%s" % (found.type, found.entry) if found else raw(it)
    return node.kind, attributes, [shown(it, resources) for it in node.children]


def layouts(path: str, qualifiers: str) -> Iterator[Tuple[str, Any, List[Any]]]:
    """The elements of each layout of an app, and what is noted of it without its place."""
    request = Request(device(qualifiers))
    with app.opened([path]) as opened:
        for name in sorted(opened.layouts(request.device)):
            made = opened.shared(request)
            views = made.expansion.layout(app.file_of(name, made.resources), made.theme)
            root = opened.root(views, made, request)
            notes = [(it.element, it.line, it.row, sorted(it.fates.items()), it.is_exact) for it in made.expansion.records]
            yield name, shown(root, made.resources), notes


@pytest.mark.parametrize("qualifiers", ["", "de-land-night-mdpi", "sw600dp-xhdpi-v30"])
def test_source_and_app_are_the_same(qualifiers: str) -> None:
    of_source = list(layouts(TRIPS, qualifiers))
    of_app = list(layouts(os.path.join(TRIPS, "trips.apk"), qualifiers))
    assert len(of_source) == 11
    for one, other in zip(of_source, of_app):
        assert one[:2] == other[:2]
        assert [it for it in strip(one[2])] == [it for it in strip(other[2])]


def strip(notes: List[Any]) -> Iterator[Any]:
    """Rows without attributes for design tools, which the build tools leave out."""
    for element, line, row, fates, is_exact in notes:
        yield element, line, row, [it for it in fates if not it[0].startswith("tools:")], is_exact

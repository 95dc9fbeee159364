"""The views that a line `inflate` makes, with what the attributes of their elements say. Loaded where a script has a
layout file, since that takes a third of a start."""
import os
from typing import Dict, Optional

from ..common.failures import Failure
from ..layouts import app_elements, elements
from ..layouts.documents import REFERENCE, Value
from ..layouts.elements import Element
from . import element_facts
from .view_tree import VISIBILITIES, Tree, View


def inflate(tree: Tree, name: str, place: Optional[View], first: int, last: int) -> None:
    """Adds the views of a layout file, which have the numbers from the first to the last, below a view or as the
    root."""
    read = elements.read(name, tree.folder)
    if len(read) != last - first + 1:
        raise Failure("the layout file %s changed in the meantime" % name)
    of_app = app_elements.of_layout(tree.folder, name)
    for number, element in enumerate(read, first):
        parent = place if element.parent is None else tree.views[first + element.parent]
        view = tree.put(number, parent, element.name)
        dress(tree, view, element)
        view.of_app = of_app.get(number - first + 1)
        if view.origin:
            view.origin = view.origin._replace(
                file=os.path.join(tree.beside, name), element=element, of_app=view.of_app,
                resolved=resolved(tree, element), names=tree.ids.listed)


def dress(tree: Tree, view: View, element: Element) -> None:
    """Gives a new view what the attributes of its element say."""
    found = element.attributes
    if "id" in found:
        tree.set_id(view, found["id"].word)
    if "visibility" in found:
        view.visibility = VISIBILITIES[found["visibility"].word]
    if "background" in found:
        view.background = "#%08x" % colour(tree, found["background"])
    if "text" in found and view.text is not None:
        view.text = words(tree, found["text"])
    if "clickable" in found and found["clickable"].word and view.kind != "ScrollView":
        view.answer = "click"
    if "textColor" in found and view.text is not None:
        view.given["ink"] = "#%08x" % colour(tree, found["textColor"])
    view.given.update(element_facts.settings_of(found))
    view.rules.update(element_facts.rules_of(found))


def resolved(tree: Tree, element: Element) -> Dict[int, str]:
    """The values of the resources that an element names, as sources have them, by their ids."""
    named = {it.word for it in element.attributes.values() if it.kind == REFERENCE and it.word}
    return {it: text for it in named for text in [resource(tree, it)] if text is not None}


def resource(tree: Tree, number: int) -> Optional[str]:
    """The value of a resource as sources have it."""
    if number in tree.colours:
        return "#%08x" % tree.colours[number]
    return tree.texts.get(number, tree.lengths.get(number))


def colour(tree: Tree, value: Value) -> int:
    """The colour that a value is, or names."""
    is_reference, number = elements.reference(value)
    if not is_reference:
        return value.word
    return tree.colours[number] if number else 0


def words(tree: Tree, value: Value) -> str:
    """The text that a value is, or names."""
    is_reference, number = elements.reference(value)
    if not is_reference:
        return value.text or ""
    return tree.texts[number] if number else ""

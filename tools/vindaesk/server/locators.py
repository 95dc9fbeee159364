"""How elements are found: the strategies of WebDriver and of Appium's clients."""
import json
import re
import xml.etree.ElementTree as ElementTree
from typing import Callable, Dict, List, NamedTuple, Optional

from ..views.uiautomator import Hierarchy
from .errors import Problem
from .uiselector import Selector, selectors_of
from .xpath import Finder

# what Selenium makes of By.ID and By.CLASS_NAME, and the plain selectors of a name or an id
CSS_ID = re.compile(r"""\[id=("(?:[^"\\]|\\.)*"|'(?:[^'\\]|\\.)*')\]""")
CSS_CLASS = re.compile(r"\.?([A-Za-z][\w.\\-]*)")
CSS_HASH = re.compile(r"#([^\s\[\].:>+~]+)")
PACKAGES = ("android.widget.", "android.view.")

XPATH, ANDROID, ACCESSIBILITY = "xpath", "-android uiautomator", "accessibility id"

Element = ElementTree.Element
Test = Callable[[Element], bool]


class Tree(NamedTuple):
    """A tree in which is looked: its elements in document order, and its text."""

    hierarchy: Hierarchy
    elements: List[Element]
    source: str


def has_id(value: str) -> Test:
    """Whether an element has this id: all of it, or what follows the last `/`."""

    def test(it: Element) -> bool:
        own = it.get("resource-id", "")
        return bool(own) and value in (own, own.rpartition("/")[2], "@" + own.rpartition(":")[2])

    return test


def has_class(value: str) -> Test:
    """Whether an element is of this class, with its package or without."""
    whole = (value, *(package + value for package in PACKAGES))
    return lambda it: it.get("class") in whole


def css(value: str) -> Test:
    """Whether an element is what a selector of CSS says."""
    found = CSS_ID.fullmatch(value)
    if found:
        return has_id(re.sub(r"\\(.)", r"\1", found[1][1:-1]))
    found = CSS_HASH.fullmatch(value)
    if found:
        return has_id(re.sub(r"\\(.)", r"\1", found[1]))
    found = CSS_CLASS.fullmatch(value)
    if found:
        return has_class(found[1].replace("\\", ""))
    raise Problem(
        "invalid selector", "of CSS there are #ID, [id=\"ID\"], CLASS and .CLASS, and no %s" % json.dumps(value)
    )


STRATEGIES: Dict[str, Callable[[str], Test]] = {
    "id": has_id,
    "class name": has_class,
    "tag name": has_class,
    "css selector": css,
    "link text": lambda value: lambda it: it.get("text") == value,
    ACCESSIBILITY: lambda value: lambda it: bool(value) and it.get("content-desc") == value,
    "partial link text": lambda value: lambda it: value in it.get("text", ""),
}


def why_none(tree: Tree, using: str) -> str:
    """Why nothing is found, beyond that nothing is so; nothing where there is no more to say."""
    if using == ACCESSIBILITY and not any(it.get("content-desc") for it in tree.elements):
        return "no view here has a content description, which only android:contentDescription of a layout gives"
    return "the frame has settled, so waiting changes nothing"


class Locators:
    """Finds elements; XPath by a process of its own."""

    def __init__(self, finder: Finder):
        self.finder = finder

    def found(self, tree: Tree, using: str, value: str, inside: Optional[Element] = None) -> List[Element]:
        """The elements of a tree, or of those below one of them, in document order."""
        below = set(inside.iter()) - {inside} if inside is not None else None
        every = [it for it in tree.elements if below is None or it in below]
        if using in STRATEGIES:
            test = STRATEGIES[using](value)
            return [it for it in every if test(it)]
        if using == XPATH:
            place = -1 if inside is None else tree.elements.index(inside)
            return [tree.elements[it] for it in self.finder.found(tree.source, value, place)]
        if using == ANDROID:
            return [it for it in selected(every, selectors_of(value))]
        known = ", ".join([*STRATEGIES, XPATH, ANDROID])
        raise Problem("invalid argument", "there is no strategy '%s'; there are %s" % (using, known))


def selected(every: List[Element], selectors: List[Selector]) -> List[Element]:
    """The elements that selectors choose, each of which is looked for below what the one before chose."""
    found = every
    for number, selector in enumerate(selectors):
        if number:
            below = {it for around in found for it in around.iter() if it is not around}
            found = [it for it in every if it in below]
        found = [it for it in found if all(test(it) for test in selector.tests)]
        if selector.instance is not None:
            found = found[selector.instance : selector.instance + 1]
    return found

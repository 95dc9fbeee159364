"""The selectors of UI Automator as Appium's clients write them: `new UiSelector().text("Reply").clickable(true)`."""
import re
import xml.etree.ElementTree as ElementTree
from typing import Callable, Dict, List, NamedTuple, Optional

from .errors import Problem

CALL = re.compile(r'\s*\.\s*(\w+)\s*\(\s*("(?:[^"\\]|\\.)*"|true|false|[0-9]{1,6}|(?=new\b))')
BEGIN = re.compile(r"\s*new\s+UiSelector\s*\(\s*\)")
END = re.compile(r"\s*\)")
ESCAPED = re.compile(r"\\(.)")
MOST_DEEP = 16

Test = Callable[[ElementTree.Element], bool]
# methods of a text, of `true` or `false`, and of a number
TEXTS: Dict[str, Callable[[str], Test]] = {
    "text": lambda value: lambda it: it.get("text") == value,
    "textContains": lambda value: lambda it: value.lower() in it.get("text", "").lower(),
    "textStartsWith": lambda value: lambda it: it.get("text", "").lower().startswith(value.lower()),
    "className": lambda value: lambda it: it.get("class") == value,
    "resourceId": lambda value: lambda it: it.get("resource-id") == value,
    "packageName": lambda value: lambda it: it.get("package") == value,
    "description": lambda value: lambda it: it.get("content-desc") == value,
    "descriptionContains": lambda value: lambda it: value.lower() in it.get("content-desc", "").lower(),
    "descriptionStartsWith": lambda value: lambda it: it.get("content-desc", "").lower().startswith(value.lower()),
}
TRUTHS = {
    **{
        name: name
        for name in ("checkable", "checked", "clickable", "enabled", "focusable", "focused", "scrollable", "selected")
    },
    "longClickable": "long-clickable",
}


class Selector(NamedTuple):
    """What an element has to be, and which of these is meant; None where all are."""

    tests: List[Test]
    instance: Optional[int]


def selectors_of(text: str) -> List[Selector]:
    """The selectors of a text: the first one, and those of children in it."""
    found: List[Selector] = []
    place = 0
    while True:
        begun = BEGIN.match(text, place)
        if not begun or len(found) > MOST_DEEP:
            raise Problem("invalid selector", "%s: a selector begins with new UiSelector()" % text[:200])
        tests: List[Test] = []
        instance: Optional[int] = None
        place, is_child = begun.end(), False
        while not is_child:
            call = CALL.match(text, place)
            if not call:
                break
            place, name, value = call.end(), call[1], call[2]
            if name == "childSelector" and not value:
                is_child = True
            elif name == "instance" and value.isdigit():
                instance = int(value)
            else:
                tests.append(test_of(name, value, text))
            place = place if is_child else ended(text, place)
        found.append(Selector(tests, instance))
        if not is_child:
            break
    for _ in found[1:]:
        place = ended(text, place)
    if text[place:].strip(" \t\n;"):
        raise Problem("invalid selector", "what follows is not known: %s" % text[place : place + 100])
    return found


def ended(text: str, place: int) -> int:
    """The place after a bracket that has to be there."""
    end = END.match(text, place)
    if not end:
        raise Problem("invalid selector", "a bracket is missing before: %s" % text[place : place + 100])
    return end.end()


def test_of(name: str, value: str, text: str) -> Test:
    """The test of a method and its value."""
    if name in TEXTS and value.startswith('"'):
        plain = ESCAPED.sub(lambda it: {"n": "\n", "t": "\t"}.get(it[1], it[1]), value[1:-1])
        return TEXTS[name](plain)
    if name in TRUTHS and value in ("true", "false"):
        return lambda it: it.get(TRUTHS[name]) == value
    if name == "index" and value.isdigit():
        return lambda it: it.get("index") == value
    known = ", ".join([*TEXTS, *TRUTHS, "index", "instance", "childSelector"])
    raise Problem("invalid selector", "UiSelector has no method %s of such a value here; there are %s" % (name, known))

"""What there is to execute: `mobile: NAME`, and the two scripts by which Selenium asks of an element."""
from typing import Any, Callable, Dict, List

from ..views import placement
from . import elements
from .capabilities import lines_of
from .errors import Problem, text_in
from .screen import KEY, Screen

# the scripts by which Selenium asks what other clients ask by paths; their first words have been these for years
IS_DISPLAYED, GET_ATTRIBUTE = "/* isDisplayed */", "/* getAttribute */"


def execute(screen: Screen, body: Any) -> Any:
    """`mobile: NAME`, and the two scripts by which Selenium asks of an element."""
    script = text_in(body, "script")
    given = body.get("args")
    if not isinstance(given, list):
        raise Problem("invalid argument", "'args' has to be a list")
    element = given[0].get(KEY) if given and isinstance(given[0], dict) else None
    if script.startswith(IS_DISPLAYED) and isinstance(element, str):
        return elements.displayed(screen, None, element)
    if script.startswith(GET_ATTRIBUTE) and isinstance(element, str) and len(given) > 1 and isinstance(given[1], str):
        return elements.plain_attribute(screen, None, element, given[1])
    if script not in MOBILE:
        known = ", ".join(MOBILE)
        raise Problem("unsupported operation", "no scripts are run; there are %s" % known)
    return MOBILE[script](screen, given[0] if given and isinstance(given[0], dict) else {})


def mobile_line(screen: Screen, given: Any) -> List[str]:
    """The replies to a line."""
    return screen.session.line(text_in(given, "line"))


def mobile_script(screen: Screen, given: Any) -> List[str]:
    """The replies to lines."""
    return lines_of(screen.session, text_in(given, "script", 16 << 20))


def mobile_touches(screen: Screen, given: Any) -> List[str]:
    """The way of the last gesture."""
    return screen.way


def mobile_tree(screen: Screen, given: Any) -> Any:
    """The views, as `tools/tree --json` has them."""
    return [placement.record(it) for it in screen.session.placed()]


def mobile_journal(screen: Screen, given: Any) -> str:
    """What was done, as a script."""
    return screen.session.journal


MOBILE: Dict[str, Callable[[Screen, Any], Any]] = {
    "mobile: line": mobile_line,
    "mobile: script": mobile_script,
    "mobile: touches": mobile_touches,
    "mobile: tree": mobile_tree,
    "mobile: journal": mobile_journal,
}

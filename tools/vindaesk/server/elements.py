"""What there is to ask of elements: commands of WebDriver over a screen, a request's body, and parts of its path."""
import json
from typing import Any, Dict, Optional, Tuple

from .errors import Problem, text_in
from .locators import why_none
from .screen import Screen

TRUTHS = (
    "checkable",
    "checked",
    "clickable",
    "enabled",
    "focusable",
    "focused",
    "scrollable",
    "long-clickable",
    "password",
    "selected",
)
# other names of attributes, as Appium's clients ask for them
ALIASES = {
    "className": "class",
    "resourceId": "resource-id",
    "contentDescription": "content-desc",
    "name": "resource-id",
    "id": "resource-id",
    "value": "text",
    "longClickable": "long-clickable",
}


def find(screen: Screen, body: Any, inside: Optional[str] = None) -> Any:
    """The first element that is found, of all or below another one."""
    using, value = text_in(body, "using"), text_in(body, "value")
    found = screen.found(using, value, inside)
    if not found:
        raise Problem(
            "no such element",
            "no element that is seen has %s %s; %s"
            % (using, json.dumps(value[:200], ensure_ascii=False), why_none(screen.tree(), using)),
        )
    return found[0]


def find_all(screen: Screen, body: Any, inside: Optional[str] = None) -> Any:
    """All that are found."""
    return screen.found(text_in(body, "using"), text_in(body, "value"), inside)


def find_below(screen: Screen, body: Any, element: str) -> Any:
    """The first below an element."""
    return find(screen, body, element)


def find_all_below(screen: Screen, body: Any, element: str) -> Any:
    """All below an element."""
    return find_all(screen, body, element)


def text(screen: Screen, body: Any, element: str) -> str:
    """The text of an element; empty where its class shows none."""
    return screen.node(element).text or ""


def name(screen: Screen, body: Any, element: str) -> str:
    """Its class, as the page source has it."""
    return screen.element(element).tag


def attribute(screen: Screen, body: Any, element: str, key: str) -> Optional[str]:
    """An attribute of the page source, or `displayed`; None where there is no such one."""
    node = screen.node(element)
    if key == "displayed":
        return "true" if node.seen else "false"
    found: Optional[str] = screen.element(element).get(ALIASES.get(key, key))
    return found


def plain_attribute(screen: Screen, body: Any, element: str, key: str) -> Optional[str]:
    """As `attribute`, except that one that is false is None, as WebDriver has it."""
    found = attribute(screen, body, element, key)
    return None if key in TRUTHS and found == "false" else found


def rect_of(box: Tuple[int, int, int, int]) -> Dict[str, int]:
    """A box as clients have it."""
    return {"x": box[0], "y": box[1], "width": box[2] - box[0], "height": box[3] - box[1]}


def rect(screen: Screen, body: Any, element: str) -> Dict[str, int]:
    """What is seen of an element."""
    return rect_of(screen.box(element))


def displayed(screen: Screen, body: Any, element: str) -> bool:
    """Whether something of it is seen."""
    return screen.node(element).seen is not None


def enabled(screen: Screen, body: Any, element: str) -> bool:
    """Views are enabled always."""
    screen.node(element)
    return True


def selected(screen: Screen, body: Any, element: str) -> bool:
    """No view is selected."""
    screen.node(element)
    return False


def click(screen: Screen, body: Any, element: str) -> None:
    """Taps an element."""
    screen.click(element)


def element_picture(screen: Screen, body: Any, element: str) -> str:
    """The picture of what is seen of an element."""
    return screen.picture(screen.box(element))

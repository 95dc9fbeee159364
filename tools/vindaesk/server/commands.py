"""The commands of WebDriver that the server takes: each with its method, its path, and what carries it out."""
import re
from typing import Any, Callable, Dict, List, NamedTuple, Tuple

from ..session import LineRefused
from . import elements, mobile
from .errors import Problem, number_in, text_in
from .screen import Screen

HANDLE = "window"
MOST_SIDE = 4096
Act = Callable[..., Any]


class Command(NamedTuple):
    """A command: its method, the form of its path below the session, and what carries it out."""

    method: str
    path: str
    act: Act


def picture(screen: Screen, body: Any) -> str:
    """The picture of the last frame."""
    return screen.picture()


def source(screen: Screen, body: Any) -> str:
    """What is seen, as Appium's page source."""
    return screen.tree().source


def actions(screen: Screen, body: Any) -> None:
    """Carries out actions of pointers."""
    screen.perform(body)


def release(screen: Screen, body: Any) -> None:
    """Lifts all pointers."""
    screen.release()


def window_rect(screen: Screen, body: Any) -> Dict[str, int]:
    """The size of the window."""
    return elements.rect_of((0, 0, *(screen.session.window_size or (0, 0))))


def set_window_rect(screen: Screen, body: Any) -> Dict[str, int]:
    """Opens a window of this size, as a device that is turned does."""
    if not isinstance(body, dict):
        raise Problem("invalid argument", "'width' and 'height' are missing")
    if body.get("width") is not None or body.get("height") is not None:
        screen.session.window(*(number_in(body, key, 1, MOST_SIDE) for key in ("width", "height")))
        screen.session.frame()
    return window_rect(screen, body)


def handle(screen: Screen, body: Any) -> str:
    """The name of the only window."""
    return HANDLE


def handles(screen: Screen, body: Any) -> List[str]:
    """The names of all windows."""
    return [HANDLE]


def switch(screen: Screen, body: Any) -> None:
    """Switches to the window where one is already."""
    if text_in(body, "handle") != HANDLE:
        raise Problem("no such window", "the only window is '%s'" % HANDLE)


def timeouts(screen: Screen, body: Any) -> Dict[str, Any]:
    """The timeouts."""
    return screen.timeouts


def set_timeouts(screen: Screen, body: Any) -> None:
    """They are kept alone: a frame has settled or not, so nothing here waits."""
    if not isinstance(body, dict):
        raise Problem("invalid argument", "timeouts are missing")
    for key in body:
        if key not in screen.timeouts:
            raise Problem("invalid argument", "there is no timeout '%s'" % key)
        if body[key] is not None or key != "script":
            number_in(body, key, 0, (1 << 53) - 1)
    screen.timeouts.update(body)


def capabilities(screen: Screen, body: Any) -> Dict[str, Any]:
    """What the session has."""
    return screen.capabilities


E = "/element/{element}"
COMMANDS = (
    Command("GET", "", capabilities),
    Command("GET", "/timeouts", timeouts),
    Command("POST", "/timeouts", set_timeouts),
    Command("GET", "/window", handle),
    Command("POST", "/window", switch),
    Command("GET", "/window/handles", handles),
    Command("GET", "/window/rect", window_rect),
    Command("POST", "/window/rect", set_window_rect),
    Command("POST", "/element", elements.find),
    Command("POST", "/elements", elements.find_all),
    Command("POST", E + "/element", elements.find_below),
    Command("POST", E + "/elements", elements.find_all_below),
    Command("GET", E + "/text", elements.text),
    Command("GET", E + "/name", elements.name),
    Command("GET", E + "/attribute/{key}", elements.attribute),
    Command("GET", E + "/property/{key}", elements.plain_attribute),
    Command("GET", E + "/rect", elements.rect),
    Command("GET", E + "/displayed", elements.displayed),
    Command("GET", E + "/enabled", elements.enabled),
    Command("GET", E + "/selected", elements.selected),
    Command("GET", E + "/screenshot", elements.element_picture),
    Command("POST", E + "/click", elements.click),
    Command("POST", "/actions", actions),
    Command("DELETE", "/actions", release),
    Command("GET", "/source", source),
    Command("GET", "/screenshot", picture),
    Command("POST", "/execute/sync", mobile.execute),
)
# commands of WebDriver that have no meaning for a tree of views: their methods and paths
UNSUPPORTED = re.compile(
    r"/(url|back|forward|refresh|title|frame|frame/parent|cookie.*|print|window/(new|maximize|minimize|fullscreen)|"
    r"execute/async|element/active|element/[^/]+/(clear|value|css/.*|computedrole|computedlabel|shadow)|shadow/.*)"
)


def pattern(path: str) -> "re.Pattern[str]":
    """A form of paths, in which {NAME} is any part."""
    return re.compile(
        "".join("([^/]+)" if it.startswith("{") else re.escape(it) for it in re.split(r"(\{\w+\})", path))
    )


PATTERNS = [(it, pattern(it.path)) for it in COMMANDS]


def carried_out(screen: Screen, method: str, path: str, body: Any) -> Any:
    """What a command of a session returns."""
    is_known = False
    for command, form in PATTERNS:
        found = form.fullmatch(path)
        if found and command.method == method:
            return answered(screen, command, body, found.groups())
        is_known |= found is not None
    if is_known:
        raise Problem("unknown method", "%s is no method of %s" % (method, path))
    if path.startswith("/alert/"):
        raise Problem("no such alert", "a tree of views has no alerts")
    if UNSUPPORTED.fullmatch(path):
        raise Problem("unsupported operation", "a tree of views has no %s" % path)
    raise Problem("unknown command", "there is no command %s %s" % (method, path))


def answered(screen: Screen, command: Command, body: Any, parts: Tuple[str, ...]) -> Any:
    """The same of a command that is known. A line that the program refuses is an error of the client."""
    with screen.lock:
        try:
            return command.act(screen, body, *parts)
        except LineRefused as refused:
            raise Problem("invalid argument", "the program has %s" % refused)
        except ValueError as error:
            raise Problem("invalid argument", str(error))

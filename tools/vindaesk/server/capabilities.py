"""What a client asks of a new session: a script, or a layout of an app."""
import contextlib
import os
from dataclasses import dataclass
from typing import TYPE_CHECKING, Any, Dict, List

from ..common import files
from ..common.failures import Failure
from ..program.statuses import MAX_SCRIPT
from ..scripts import script
from ..session import LineRefused, Session
from .errors import Problem

if TYPE_CHECKING:
    from ..session import AppSession

OWN = "vindaesk:"
# capabilities that are read; those of `appium:` that have no effect are listed as `vindaesk:ignored`
TEXTS = (
    "vindaesk:script",
    "vindaesk:lines",
    "appium:app",
    "vindaesk:layout",
    "vindaesk:config",
    "vindaesk:theme",
    "appium:language",
    "appium:locale",
    "appium:orientation",
)
ORIENTATIONS = ("PORTRAIT", "LANDSCAPE")
BROWSERS = ("", "vindaesk")
DROPPED = (
    "pageLoadStrategy",
    "acceptInsecureCerts",
    "unhandledPromptBehavior",
    "strictFileInteractability",
    "timeouts",
    "setWindowRect",
    "proxy",
    "webSocketUrl",
)
MOST_CHOICES = 16


@dataclass(frozen=True)
class Place:
    """Where the files of sessions are, and how long an answer may take, in seconds."""

    folder: str
    seconds: float

    def inside(self, path: str, key: str) -> str:
        """A file below the folder."""
        top = os.path.realpath(self.folder)
        found = os.path.realpath(os.path.join(top, path))
        if "\0" in path or os.path.commonpath([top, found]) != top:
            raise Problem("session not created", "%s: '%s' is not below the server's folder" % (key, path))
        if not os.path.exists(found):
            raise Problem("session not created", "%s: there is no '%s' in the server's folder" % (key, path))
        return found


def choices_of(body: Any) -> List[Dict[str, Any]]:
    """The sets of capabilities that a request offers, of which one is enough."""
    asked = body.get("capabilities") if isinstance(body, dict) else None
    always = asked.get("alwaysMatch", {}) if isinstance(asked, dict) else None
    first = asked.get("firstMatch", [{}]) if isinstance(asked, dict) else None
    if not isinstance(always, dict) or not isinstance(first, list) or not 0 < len(first) <= MOST_CHOICES:
        raise Problem("invalid argument", "'capabilities' has to have 'alwaysMatch' or 'firstMatch'")
    for it in first:
        if not isinstance(it, dict) or set(it) & set(always):
            raise Problem("invalid argument", "each of 'firstMatch' has capabilities that 'alwaysMatch' has not")
    return [{**always, **it} for it in first]


def unfit(wanted: Dict[str, Any]) -> str:
    """Why a set of capabilities cannot be had; nothing where it can."""
    platform, browser = wanted.get("platformName", ""), wanted.get("browserName", "")
    if not isinstance(platform, str) or platform.lower() not in ("", "android", "any"):
        return "the platform is Android, and not %s" % platform
    if browser not in BROWSERS:
        return "the browser is vindaesk, or none, and not %s" % browser
    for key, value in wanted.items():
        if key in TEXTS and not isinstance(value, str):
            return "%s has to be a text" % key
        if key == "vindaesk:night" and not isinstance(value, bool):
            return "vindaesk:night has to be true or false"
        if key.startswith(OWN) and key not in TEXTS and key != "vindaesk:night":
            return "there is no capability %s; there are %s and vindaesk:night" % (key, ", ".join(TEXTS))
        if ":" not in key and key not in (*DROPPED, "platformName", "browserName"):
            return "there is no capability %s" % key
    if wanted.get("appium:orientation", "PORTRAIT") not in ORIENTATIONS:
        return "appium:orientation is PORTRAIT or LANDSCAPE"
    if sum(it in wanted for it in ("vindaesk:script", "vindaesk:lines", "appium:app")) > 1:
        return "vindaesk:script, vindaesk:lines and appium:app are three ways to begin: take one"
    return (
        "vindaesk:layout has to name a layout of the app"
        if "appium:app" in wanted and "vindaesk:layout" not in wanted
        else ""
    )


def chosen(body: Any) -> Dict[str, Any]:
    """The first set of capabilities that can be had."""
    choices = choices_of(body)
    why = [unfit(it) for it in choices]
    if "" not in why:
        raise Problem("session not created", why[0])
    return choices[why.index("")]


def returned(wanted: Dict[str, Any], session: Session) -> Dict[str, Any]:
    """What a client gets to know of a session."""
    known = {key: value for key, value in wanted.items() if key in TEXTS or key == "vindaesk:night"}
    known.pop("vindaesk:lines", None)
    found: Dict[str, Any] = {
        "platformName": "Android",
        "browserName": "vindaesk",
        "appium:automationName": "vindaesk",
        "setWindowRect": True,
        **known,
    }
    ignored = sorted(it for it in wanted if it not in known and (":" in it or it in DROPPED) and it not in TEXTS)
    if ignored:
        found["vindaesk:ignored"] = ignored
    # of a layout of an app
    notes = getattr(session, "notes", None)
    if notes is not None:
        found["vindaesk:notes"] = notes()
    return found


def opened(wanted: Dict[str, Any], place: Place, closing: contextlib.ExitStack) -> Session:
    """The session that is asked for, which ends with `closing`. What is wrong with it is a Problem."""
    try:
        if "appium:app" in wanted:
            return closing.enter_context(of_app(wanted, place))
        return of_script(wanted, place, closing)
    except LineRefused as refused:
        raise Problem("session not created", "a line is %s" % refused)
    except Failure as failure:
        raise Problem("session not created", str(failure))


def of_script(wanted: Dict[str, Any], place: Place, closing: contextlib.ExitStack) -> Session:
    """A session after the lines of a script, or an empty one."""
    path = place.inside(wanted["vindaesk:script"], "vindaesk:script") if "vindaesk:script" in wanted else ""
    made = closing.enter_context(Session(os.path.dirname(path) or place.folder, seconds=place.seconds))
    if path:
        made.script(files.read(path, MAX_SCRIPT).decode("utf-8", "surrogateescape"))
    else:
        lines_of(made, wanted.get("vindaesk:lines", ""))
    return made


def lines_of(session: Session, text: str) -> List[str]:
    """Carries out lines of a client, in which nothing is included: that would show it files of others."""
    lines = script.lines_in(text.encode("utf-8", "surrogateescape"))
    return [reply for it in lines for reply in session.line(it.decode("utf-8", "surrogateescape"))]


def of_app(wanted: Dict[str, Any], place: Place) -> "contextlib.AbstractContextManager[AppSession]":
    """A session over a layout of an app."""
    # loaded when it is asked for
    from ..session import app

    locale = "-".join(filter(None, (wanted.get("appium:language", ""), wanted.get("appium:locale", ""))))
    return app(
        place.inside(wanted["appium:app"], "appium:app"),
        wanted["vindaesk:layout"],
        locale=locale,
        night=wanted.get("vindaesk:night", False),
        land=wanted.get("appium:orientation") == "LANDSCAPE",
        config=wanted.get("vindaesk:config", ""),
        theme=wanted.get("vindaesk:theme", ""),
        seconds=place.seconds,
    )

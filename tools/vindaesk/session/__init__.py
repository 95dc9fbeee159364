"""One program that is driven line by line, from Python: `from vindaesk.session import Session`."""
from typing import TYPE_CHECKING, Any

from ..common.failures import Failure
from .errors import LineRefused, NoAnswer, NoRoom, NotFound, OtherView
from .results import Bounds, Frame, Inflated, Node, Way
from .session import Session
from .stack import Stack, StackWindow

if TYPE_CHECKING:
    from .app_session import AppSession, app

__all__ = [
    "AppSession",
    "Bounds",
    "Failure",
    "Frame",
    "Inflated",
    "LineRefused",
    "NoAnswer",
    "NoRoom",
    "Node",
    "NotFound",
    "OtherView",
    "Session",
    "Stack",
    "StackWindow",
    "Way",
    "app",
]


def __getattr__(name: str) -> Any:
    """What is of apps is loaded when it is asked for: it takes twice as long as all else."""
    if name not in ("AppSession", "app"):
        raise AttributeError("module %r has no attribute %r" % (__name__, name))
    from . import app_session

    return getattr(app_session, name)

"""What the commands of an installed package call: the function `tree` of this module for `vindaesk-tree`."""
import importlib
from functools import partial
from typing import Callable, NoReturn

from ..common import ending


def run(name: str) -> NoReturn:
    """Runs the tool of a module over the words of the process, and ends with its status."""
    ending.call(importlib.import_module("." + name, __package__).main)


def __getattr__(name: str) -> Callable[[], NoReturn]:
    """The function of a tool."""
    if name.startswith("_"):
        raise AttributeError(name)
    return partial(run, name)

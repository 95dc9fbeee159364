"""Which program is run: the installed one; in a checkout that of dist/ if it is of the sources as they are, or else the
one that was built here."""
from __future__ import annotations

import os

from ..common.failures import Failure, NOT_BUILT
from ..common.places import TOP
from . import built, dist
from .sources import Listing

NAMED = "VINDAESK_PROGRAM"
PROVE = "VINDAESK_PROVE"
INSTALLED = os.path.join(TOP, "view_tool")


def is_checkout() -> bool:
    """Whether there are sources here."""
    return os.path.exists(os.path.join(TOP, "crates.txt"))


def proves() -> bool:
    """Whether dist/ is passed over, so that the program is one that was proved here."""
    return os.environ.get(PROVE, "0") not in ("", "0")


def named() -> str | None:
    """The program that the variable names, if it is set."""
    found = os.environ.get(NAMED)
    if found and not (os.path.isfile(found) and os.access(found, os.X_OK)):
        raise Failure("there is no program at %s, which the variable %s names" % (found, NAMED), NOT_BUILT)
    return os.path.realpath(found) if found else None


def up_to_date() -> str | None:
    """The program that is of the sources as they are; None where it has to be built."""
    if not is_checkout():
        return INSTALLED
    listing = Listing()
    if not proves() and dist.is_of(listing):
        dist.check()
        return dist.PROGRAM
    return built.PROGRAM if built.is_up_to_date(listing) else None


def available() -> str:
    """The program that tools run: the one that is of the sources as they are, which takes 10 ms to find. Where there is
    none, as after an edit, it is the newer of the two that are there, so that tools need no build."""
    found = up_to_date()
    if found is None and not proves() and dist.is_there() and dist_is_newer():
        dist.check()
        return dist.PROGRAM
    if found is None and not built.is_there():
        why = "the program is not built, or not of these sources; ./vindaesk run builds it, see ./vindaesk --help"
        raise Failure(why, NOT_BUILT)
    return found or built.PROGRAM


def dist_is_newer() -> bool:
    """Whether the program of dist/ came here after the one that was built."""
    return not built.is_there() or built.time_of(dist.PROGRAM) > built.time_of(built.PROGRAM)

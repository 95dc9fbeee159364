"""Which sources are not those of dist/."""
from __future__ import annotations

from . import dist, git
from .sources import FILES, FOLDER, Listing


def paths() -> list[str]:
    """The files that are other than at the commit of dist/, or new; none where git does not know."""
    commit = dist.read().get("commit", [""])[0]
    where = ("--", FOLDER, *FILES)
    changed = git.lines("diff", "--name-only", "--no-renames", commit, *where) if commit else None
    added = git.lines("ls-files", "--others", "--exclude-standard", *where)
    return sorted({*(changed or ()), *(added or ())}) if changed is not None else []


def in_words() -> str:
    """The first file that differs, and how many others do."""
    found = paths()
    if not found:
        return "the newest of them is %s" % Listing().newest()
    return found[0] + (" and %d more" % (len(found) - 1) if len(found) > 1 else "")

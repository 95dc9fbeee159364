"""What is written of the layouts of an app: a folder of scripts and compiled layouts, the list of ids, the report."""
import difflib
import json
import os
from typing import Dict, List, Sequence

from ..common import files
from ..common.failures import NOT_RUN, Failure
from ..common.messages import printable, tool
from ..layouts.app_elements import REPORT, VERSION
from . import report, writer
from .app import Screen
from .report import Sums

IDS = "ids.txt"


def unknown(name: str, known: Sequence[str]) -> str:
    """Says that an app has no layout of a name, and which name may be meant."""
    near = difflib.get_close_matches(name, known, 1)
    return "the app has no layout '%s'%s" % (
        printable(name), "; did you mean '%s'?" % near[0] if near else "; %s --list prints their names" % tool("app")
    )


def share(part: int, of: int) -> str:
    """A part in words: hundredths, rounded down."""
    return "%d %%" % (100 * part // of) if of else "none"


def sums_json(sums: Sums) -> Dict[str, int]:
    """The sums of a layout, or of all."""
    return {"views": sums.views, "exact": sums.exact, "exact_without_text": sums.without_text, "whole": sums.whole}


def total(screens: Sequence[Screen]) -> Sums:
    """The sums of layouts together."""
    rows = [it.sums for it in screens if not it.why]
    return Sums(*(sum(it[k] for it in rows) for k in range(4))) if rows else Sums(0, 0, 0, 0)


def screen_json(screen: Screen) -> Dict[str, object]:
    """A layout as docs/app.schema.json has it."""
    return {
        "name": screen.name, "file": screen.file, "theme": screen.theme, "window": list(screen.window),
        "density": screen.density, "failure": screen.why or None, "sums": sums_json(screen.sums),
        "elements": [report.json_of(it) for it in screen.records],
    }


def json_of(screens: Sequence[Screen]) -> Dict[str, object]:
    """The report as docs/app.schema.json has it."""
    return {
        "version": VERSION, "sums": sums_json(total(screens)), "layouts": [screen_json(it) for it in screens],
    }


def summary_line(screen: Screen) -> str:
    """How exact a layout is."""
    sums = screen.sums
    if screen.why:
        return "%s: not made: %s" % (screen.name, screen.why)
    return "%s: %d views, %d exact (%s)" % (screen.name, sums.views, sums.exact, share(sums.exact, sums.views))


def summary(screens: Sequence[Screen]) -> List[str]:
    """How exact layouts are, and all together."""
    found = [summary_line(it) for it in screens]
    good = [it for it in screens if not it.why]
    sums = total(screens)
    if len(screens) > 1:
        found.append("%d of %d layouts: %d views, %d exact (%s)" % (
            len(good), len(screens), sums.views, sums.exact, share(sums.exact, sums.views)))
    return found


def write(folder: str, screens: Sequence[Screen]) -> None:
    """Writes all of it into a folder, which is made where it is not there."""
    try:
        os.makedirs(folder, exist_ok=True)
    except OSError as error:
        why = error.strerror or str(error)
        raise Failure("the folder %s cannot be made: %s" % (printable(folder), why), NOT_RUN)
    ids: Dict[int, str] = {}
    for it in screens:
        if it.why:
            continue
        ids.update(it.ids)
        files.replace(os.path.join(folder, it.name + ".xml"), it.compiled)
        files.replace(os.path.join(folder, it.name + ".script"), it.script)
    files.replace(os.path.join(folder, IDS), writer.list_of(ids))
    files.replace(os.path.join(folder, REPORT), written(screens))


def written(screens: Sequence[Screen]) -> bytes:
    """The report as a file has it."""
    return (json.dumps(json_of(screens), indent=1, ensure_ascii=False) + "\n").encode("utf-8", "replace")

"""Each view that a script leaves, in preorder, indented by its depth: number, class, id, text, bounds.

The bounds are those of the last frame: left, top, right and bottom in the view's parent, and after the word `at` in
the window, where that is another place. `scroll`, the visibility and `bg` follow where they are not those of a new
view; a view without bounds has `none`, and one whose background a hook may have set, or not, `bg unknown`. With --json
all of this is written in the form of docs/TOOLS.md, and with --uiautomator what is seen in that of `uiautomator dump`.
Layout files are taken from the folder of the script.

Each line that is refused is reported on standard error, and makes the status 1; the tree is written all the same. Where
there is no window, no frame, no root, or the last frame has not settled, the status is 1 and nothing is written.

Of many scripts each tree follows a line with its path, or is a file of the folder --out. One that fails stops no other.
"""
import argparse
from functools import partial
from typing import List, Optional, Sequence

from ..common import files
from ..scripts import script
from ..scripts.replies import Refused
from ..scripts.script import Script
from ..views import placement
from ..views.placement import Placed
from . import arguments, many
from .uses import Purpose, Use

USE = Use(Purpose.LOOK, "vindaesk tree card.script", "each view that a script leaves, and where it is in the window")


def reader() -> argparse.ArgumentParser:
    """The arguments."""
    found = arguments.parser(__doc__)
    many.add(found, "DIR/NAME.txt of each, NAME.json or NAME.xml")
    found.add_argument("--json", action="store_true", help="writes JSON")
    found.add_argument("--uiautomator", action="store_true", help="writes the XML of `uiautomator dump`")
    return found


def xml_of(made: Script, views: List[Placed]) -> str:
    """What is seen of a script's views, as `uiautomator dump` writes it."""
    # loaded where it is asked for: XML takes a tenth of a start
    from ..views import uiautomator

    return uiautomator.Hierarchy(views, uiautomator.Origin(made.ids, window=script.last_window(made.lines))).text()


def text_of(made: Script, refused: Refused, given: argparse.Namespace) -> bytes:
    """The tree of a script, in the form of a call."""
    views = placement.views_of(made, refused)
    if given.uiautomator:
        return xml_of(made, views).encode()
    window = script.last_window(made.lines) or (0, 0)
    return (placement.as_json(window, views) if given.json else placement.as_text(views)).encode()


def of_single(given: argparse.Namespace) -> int:
    """Writes the tree of the only script of a call. Returns the status."""
    made = arguments.single(given)
    if arguments.show_expanded(given, made):
        return 0
    refused = Refused(made)
    files.write("-", text_of(made, refused, given))
    return refused.end()


def of_many(given: argparse.Namespace, it: many.Input) -> int:
    """Writes the tree of one of many scripts. Returns the status."""
    made = arguments.single(many.one(given, it.path))
    refused = Refused(made)
    tree = text_of(made, refused, given)
    if given.out_folder:
        many.write(many.place_of(given.out_folder, it, ending_of(given)), tree)
    else:
        files.write("-", ("\n" * bool(it.place) + files.named(it.path) + ":\n").encode() + tree)
    return refused.end()


def ending_of(given: argparse.Namespace) -> str:
    """The ending of a file with a tree."""
    return ".json" if given.json else ".xml" if given.uiautomator else ".txt"


def main(words: Optional[Sequence[str]] = None) -> int:
    parser = reader()
    given = arguments.parsed(parser, words)
    if given.json and given.uiautomator:
        parser.error("--json and --uiautomator are two forms: take one")
    many.check_options(given, parser)
    if not many.is_many(given):
        return of_single(many.one(given, given.scripts[0]))
    if (given.json or given.uiautomator) and not given.out_folder:
        parser.error("the %s of many scripts needs --out DIR" % ("JSON" if given.json else "XML"))
    found = many.inputs(given.scripts)
    if given.out_folder:
        many.check_places(given, found, given.out_folder, ending_of(given))
    return many.run(partial(of_many, given), found, given)

"""A page in HTML of what a script does, in one file without any outside part.

It has the picture of each frame that settles, with the views beside it; the bounds, padding and margins of the view
that is pointed at or chosen; the touches after each frame, drawn over its picture; and a slider over the frames. Layout
files are taken from the folder of the script.

With --config NAME the script is carried out in a configuration of NAME.toml or vindaesk.toml beside it; with several,
or all, each has a page OUT@NAME.html.

Each line that is refused is reported on standard error, and makes the status 1; the page is written all the same. Where
no frame has settled, the status is 1 and nothing is written.

Many scripts have their pages in the folder --out. One that fails stops no other.
"""
import argparse
import os
from functools import partial
from typing import Optional, Sequence

from ..common import files, messages
from ..pages import page
from ..scripts.replies import Refused
from . import arguments, many
from .arguments import Adapted
from .uses import Purpose, Use

USE = Use(Purpose.LOOK, "vindaesk page reader.script out.html", "a page in HTML with each frame, its views and touches")

ENDING = ".html"


def reader() -> argparse.ArgumentParser:
    """The arguments."""
    found = arguments.parser(__doc__)
    many.add(found, "DIR/NAME.html of each")
    found.add_argument("out", metavar="OUT.html", nargs="?", help="the page of one script, or - for standard output")
    found.add_argument("--frames", metavar="N", type=arguments.count(1, 10000), default=100,
                       help="shows the first N frames, 1 to 10000; 100")
    found.add_argument("--title", metavar="TEXT", help="the title; without it, the name of the script")
    return found


def written(it: Adapted, given: argparse.Namespace, out: str) -> int:
    """Writes the page of a script. Returns the status."""
    refused = Refused(it.script)
    found = page.recorded(it.script, refused, given.frames)
    if found.more:
        messages.say("the page has the first %d frames, and %d more are left out" % (len(found.steps), found.more))
    title = given.title or os.path.basename(files.named(given.script))
    title += " @" + it.name if it.name else ""
    body, path = page.page(title, found), arguments.out_of(out, it.name, given)
    many.write(path, body) if given.out_folder else files.write(path, body)
    return refused.end()


def of_script(given: argparse.Namespace, out: str) -> int:
    """Writes the pages of a script, in each of its configurations. Returns the status."""
    status = 0
    for it in arguments.scripts(given):
        if not arguments.show_expanded(given, it.script):
            status |= written(it, given, out)
    return status


def of_many(given: argparse.Namespace, it: many.Input) -> int:
    """Writes the pages of one of many scripts. Returns the status."""
    return of_script(many.one(given, it.path), many.place_of(given.out_folder, it, ENDING))


def main(words: Optional[Sequence[str]] = None) -> int:
    parser = reader()
    given = arguments.parsed(parser, words)
    many.take_out(given, parser)
    many.check_options(given, parser)
    if not many.is_many(given):
        if not (given.out or given.expanded):
            parser.error("OUT.html or --out DIR is needed")
        return of_script(many.one(given, given.scripts[0]), given.out)
    if given.title:
        parser.error("--title takes a single script")
    found = many.inputs(given.scripts)
    many.check_places(given, found, given.out_folder, ENDING)
    return many.run(partial(of_many, given), found, given)

"""How many pixels of two PNG files differ, by how much at most, and within which box.

The box is left, top, right and bottom, the last two exclusive. Where there are several regions apart from each other,
each has a line with its own box; with --script the view that is there is named. OUT.png shows the first picture dimmed,
and red pixels where the second one differs. One of the files may be - for standard input.

The status is 0 where no pixel differs, 1 where some do, and 2 where the sizes differ or a file is broken.
"""
import argparse
from typing import List, Optional, Sequence

from ..common import failures, files
from ..common.failures import Failure
from ..common.messages import printable
from ..pictures import difference, png
from ..scripts.replies import Refused
from ..views import placement
from ..views.placement import Placed
from . import arguments
from .uses import Purpose, Use

USE = Use(Purpose.CHECK, "vindaesk screenshot screen.script - | vindaesk picdiff screen.png -",
          "where two pictures differ")


def reader() -> argparse.ArgumentParser:
    """The arguments."""
    found = arguments.parser(__doc__)
    found.add_argument("before", metavar="A.png", help="a picture")
    found.add_argument("after", metavar="B.png", help="the other one")
    found.add_argument("out", metavar="OUT.png", nargs="?", help="a picture of the difference")
    found.add_argument(
        "--tolerance", metavar="N", type=arguments.count(0, 255), default=0, help="channels may differ by N, 0 to 255"
    )
    found.add_argument("--script", metavar="SCRIPT", help="the script of B.png: names the view of each region")
    found.add_argument("--config", metavar="CONFIGURATION,..", type=arguments.names, default=[], help="the configuration of B.png")
    found.add_argument("--ids", metavar="FILE", help="the list of ids of the script")
    return found


def views_of(given: argparse.Namespace) -> List[Placed]:
    """The views of the script whose picture the second one is; none without it."""
    if not given.script:
        return []
    made = arguments.single(given)
    return placement.views_of(made, Refused(made, is_silent=True))


def main(words: Optional[Sequence[str]] = None) -> int:
    parser = reader()
    given = arguments.parsed(parser, words)
    if given.before == given.after == "-":
        parser.error("only one picture can come from standard input")
    if given.out == "-":
        parser.error("the picture of the difference needs a file")
    before, after = (png.read(files.read(path), files.named(path)) for path in (given.before, given.after))
    if before[:2] != after[:2]:
        raise Failure("the sizes differ: %d by %d, and %d by %d" % (before[:2] + after[:2]), failures.NOT_RUN)
    found = difference.compared(before, after, given.tolerance)
    print(difference.in_words(found))
    views = views_of(given)
    if given.script or len(found.regions) > 1:
        # loaded where there is something to say: that takes a third of a start
        from ..testing import evidence

        rows = evidence.regions_in(found, views)
        for line in evidence.lines_of(rows, len(found.regions) - len(rows)):
            print("  " + printable(line))
    if given.out:
        files.write(given.out, png.written(difference.drawn(before, found)))
    return failures.WRONG if found.pixels else 0

"""The picture that a script ends with, as a PNG file; or a picture of each of its frames; or one of a stack of windows.

Carries out the script, asks for the picture of its last frame by lines `pixels`, and writes it. What is edited after
the last frame is not seen. Layout files are taken from the folder of the script. With --stack the script is one of a
stack of windows, and lines `compose` ask for the picture.

With --config NAME the script is carried out in a configuration of NAME.toml or vindaesk.toml beside it; with several,
or all, each has a picture OUT@NAME.png.

Each line that is refused is reported on standard error, and makes the status 1; the picture is written all the same.
Where there is no window, no frame, or the last one has not settled, the status is 1 and nothing is written.

Many scripts have their pictures in the folder --out. One that fails stops no other.
"""
import argparse
import os
from functools import partial
from typing import Optional, Sequence, Tuple

from ..common import files
from ..pictures import frames, png
from ..scripts import script
from ..scripts.replies import Refused
from ..scripts.script import Script
from . import arguments, many
from .uses import Purpose, Use

USE = Use(Purpose.LOOK, "vindaesk screenshot card.script out.png --scale 2",
          "the picture that a script ends with, or one of each frame")

ENDING = ".png"


def reader() -> argparse.ArgumentParser:
    """The arguments."""
    found = arguments.parser(__doc__)
    many.add(found, "DIR/NAME.png of each")
    found.add_argument("out", metavar="OUT.png", nargs="?", help="the picture of one script, or - for standard output")
    found.add_argument("--scale", metavar="N", type=arguments.count(1, 8), default=1, help="a pixel is N by N, 1 to 8")
    found.add_argument("--frames", metavar="DIR", dest="frames_folder",
                       help="writes DIR/0001.png and so on, one for each frame that settles; of many, DIR/NAME/0001.png")
    found.add_argument("--stack", metavar="WxH", type=size, help="of a stack of windows: W by H points of it, from 0 0")
    return found


def size(text: str) -> Tuple[int, int]:
    """The size of a picture of a stack."""
    width, between, height = text.partition("x")
    if not between:
        raise argparse.ArgumentTypeError("'%s' is no size, as 320x180" % text)
    side = arguments.count(1, script.MAX_SIDE)
    return side(width), side(height)


def of_stack(made: Script, given: argparse.Namespace, out: str) -> int:
    """Writes the picture of a stack of windows. Returns the status."""
    refused = Refused(made)
    picture = frames.composed(made, refused, given.stack)
    status = refused.end()
    put(out, png.written(picture, given.scale), given)
    return status


def put(out: str, body: bytes, given: argparse.Namespace) -> None:
    """Writes a picture, of many scripts into a folder that is made where it is not there."""
    if given.out_folder:
        many.write(out, body)
    else:
        files.write(out, body)


def of_script(made: Script, given: argparse.Namespace, out: Optional[str], folder: Optional[str]) -> int:
    """Writes the picture of the last frame, and into a folder that of each frame. Returns the status."""
    if folder:
        os.makedirs(folder, exist_ok=True)
    refused = Refused(made)
    count = 0
    for frame in frames.frames(made, refused, bool(folder)):
        last = frame
        if folder and frame.picture and frame.is_new:
            count += 1
            files.replace(os.path.join(folder, "%04d.png" % count), png.written(frame.picture, given.scale))
    status = refused.end()
    picture = frames.picture_of(last)
    if out:
        put(out, png.written(picture, given.scale), given)
    return status


def of_each(given: argparse.Namespace, to: Optional[str], frames_to: Optional[str]) -> int:
    """Writes the pictures of a script, in each of its configurations. Returns the status."""
    status = 0
    for it in arguments.scripts(given):
        if arguments.show_expanded(given, it.script):
            continue
        out = to and arguments.out_of(to, it.name, given)
        folder = frames_to and arguments.out_of(frames_to, it.name, given)
        status |= of_stack(it.script, given, out or "-") if given.stack else of_script(it.script, given, out, folder)
    return status


def of_many(given: argparse.Namespace, it: many.Input) -> int:
    """Writes the pictures of one of many scripts. Returns the status."""
    out = given.out_folder and many.place_of(given.out_folder, it, ENDING)
    folder = given.frames_folder and many.place_of(given.frames_folder, it, "")
    return of_each(many.one(given, it.path), out, folder)


def check(given: argparse.Namespace, parser: argparse.ArgumentParser) -> None:
    """What arguments do not go together."""
    many.take_out(given, parser)
    many.check_options(given, parser)
    to, of_frames = given.out or given.out_folder, given.frames_folder
    if not (to or of_frames or given.expanded):
        parser.error("OUT.png, --out DIR or --frames DIR is needed")
    if given.stack and (of_frames or not to):
        parser.error("--stack takes OUT.png or --out DIR, and no --frames")
    if of_frames and given.out_folder and os.path.realpath(of_frames) == os.path.realpath(given.out_folder):
        parser.error("--out and --frames need two folders")


def main(words: Optional[Sequence[str]] = None) -> int:
    parser = reader()
    given = arguments.parsed(parser, words)
    check(given, parser)
    if not many.is_many(given):
        return of_each(many.one(given, given.scripts[0]), given.out, given.frames_folder)
    found = many.inputs(given.scripts, many.STACKS if given.stack else many.SCRIPTS)
    for folder, ending in ((given.out_folder, ENDING), (given.frames_folder, "")):
        if folder:
            many.check_places(given, found, folder, ending)
    return many.run(partial(of_many, given), found, given)

"""The pictures of examples/: each has the digest that the program writes of the last frame of its script. A picture
with a file NAME.stack, which is a script for a stack of windows, has the colours that the program composes."""
import glob
import hashlib
import os
from functools import partial

from running import PROGRAM, TOP, Checks, run
from vindaesk.common import files
from vindaesk.pictures import png


def stacked(path: str) -> str:
    """Why a picture of a stack fails, or nothing."""
    wanted = png.read(files.read(path), path)
    script = files.read(path[: -len("png")] + "stack")
    line = b"\ncompose 0 0 %d %d\n" % (wanted.width, wanted.height)
    written, _ = run([PROGRAM, "stack"], script + line, os.path.dirname(path))
    rows = [bytes.fromhex(row.decode()) for row in written.split(b"\n")[-1 - wanted.height : -1]]
    return "" if rows == wanted.rows else "its colours are others than those of the script"


def picture(path: str) -> str:
    """Why a picture fails, or nothing."""
    digest = hashlib.sha256(b"".join(png.read(files.read(path), path).rows)).hexdigest()
    script = files.read(path[: -len("png")] + "script")
    written, _ = run([PROGRAM, "run"], script + b"\ndigest\n", os.path.dirname(path))
    wanted = written.split(b"\n")[-2].decode("utf-8", "backslashreplace")
    return "" if wanted == digest else "its digest is %s, and the program writes %s" % (digest, wanted)


def checks() -> Checks:
    for path in sorted(glob.glob(os.path.join(TOP, "examples", "*.png"))):
        check = stacked if os.path.exists(path[: -len("png")] + "stack") else picture
        yield os.path.relpath(path, TOP), partial(check, path)

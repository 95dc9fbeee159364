"""Messages on standard error, in which no text of a user can hide control characters."""
import os
import sys

from . import progress


def printable(text: str) -> str:
    """A text whose control characters are escaped."""
    return "".join(it if it.isprintable() else it.encode("unicode_escape", "replace").decode() for it in text)


def shown(text: bytes, limit: int = 160) -> str:
    """A text of a script as a message shows it: in one line, without control characters, and not too long."""
    plain = printable(text[: 4 * limit].decode("utf-8", "backslashreplace"))
    return plain if len(plain) <= limit and len(text) <= 4 * limit else plain[:limit] + " .."


def tool(name: str) -> str:
    """How a tool beside this one is called, as this one was: `vindaesk check`, `vindaesk-check` or `tools/check`."""
    folder, own = os.path.split(sys.argv[0])
    if own.startswith(("vindaesk ", "vindaesk-")):
        return own[: len("vindaesk ")] + name
    return os.path.join(folder, name)


def say(sentence: str) -> None:
    """Writes a sentence on standard error, after the tool's name. Where that is closed, the sentence is lost."""
    try:
        progress.clear()
        print("%s: %s" % (os.path.basename(sys.argv[0]), printable(sentence)), file=sys.stderr, flush=True)
    except OSError:
        return

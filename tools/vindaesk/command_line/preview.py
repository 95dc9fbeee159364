"""A page in the browser that follows a layout while its files are edited.

PATH is a script, the source of a layout, a compiled one, or an app: an APK, or the folder of a project with the name of
the layout. The source of a layout in a folder `res/layout` is shown as one of that project's app, any other one as the
only layout of an app; with --ids, or ids.txt or resources.lines beside it, as the program alone takes it.

The page has the picture in several configurations, the views with their facts, what lint finds, and touches by the
mouse. It is at 127.0.0.1 alone, at an address with a random key, which is printed. With --write a value that is edited
in the page is written back to its file. Ctrl-C ends it, with the status 0.
"""
import argparse
import webbrowser
from typing import Optional, Sequence

from ..preview import server, subjects
from ..preview.preview import Preview
from . import arguments
from .uses import Purpose, Use

USE = Use(Purpose.LOOK, "vindaesk preview card.script --open",
          "a page in the browser that follows a layout while it is edited")


def reader() -> argparse.ArgumentParser:
    """The arguments."""
    found = arguments.parser(__doc__)
    found.add_argument("path", metavar="PATH", help="a script, a layout file, an APK or the folder of a project")
    found.add_argument("names", metavar="LAYOUT", nargs="*",
                       help="the layout of an app by its name; and further APKs of a split app")
    found.add_argument("--write", action="store_true", help="writes what is edited in the page back to its file")
    found.add_argument("--port", metavar="N", type=arguments.count(0, 65535), default=0,
                       help="the port; without it a free one")
    found.add_argument("--open", action="store_true", help="opens the page in the browser")
    found.add_argument("--ids", metavar="FILE", help="the list of ids by names; ids.txt beside PATH without it")
    found.add_argument("--theme", metavar="NAME", default="", help="the theme of an app; that of its manifest without it")
    found.add_argument("--framework", metavar="APK", help="Android's own resources, for an app")
    return found


def main(words: Optional[Sequence[str]] = None) -> int:
    given = reader().parse_intermixed_args(words)
    apks = [it for it in given.names if it.lower().endswith(".apk")]
    names = [it for it in given.names if it not in apks]
    subject = subjects.subject([given.path, *apks], names, given.ids, given.theme, given.framework)
    try:
        served = server.Server(Preview(subject, given.write), given.port)
        print(served.address(), flush=True)
        if given.open:
            webbrowser.open(served.address())
        server.serve(served)
    except KeyboardInterrupt:
        return 0
    finally:
        subject.close()
    return 0

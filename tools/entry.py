"""How the commands in this folder, and `vindaesk` beside it, begin: with the package beside them. In a checkout its
compiled modules are kept in out/; elsewhere they are beside their sources, where they were compiled or can be."""
import os
import sys
from importlib.machinery import FileFinder, SourceFileLoader
from types import CodeType
from typing import Optional

TOOLS = os.path.dirname(os.path.realpath(__file__))
TOP = os.path.dirname(TOOLS)
LEAST = (3, 8)


class Loader(SourceFileLoader):
    """Loads a module of the package, whose compiled form is kept in out/. Python's own modules are compiled already."""

    def get_code(self, fullname: str) -> Optional[CodeType]:
        before, sys.pycache_prefix = sys.pycache_prefix, os.path.join(TOP, "out", "pycache")
        try:
            return super().get_code(fullname)
        finally:
            sys.pycache_prefix = before


def finder(path: str) -> FileFinder:
    """What finds the modules in a folder of the package."""
    if not (path + os.sep).startswith(TOOLS + os.sep) or not os.path.isdir(path):
        raise ImportError
    return FileFinder(path, (Loader, [".py"]))


def prepare() -> None:
    """Has the package be found."""
    if TOOLS not in sys.path:
        sys.path.insert(0, TOOLS)
    if os.path.exists(os.path.join(TOP, "crates.txt")):
        sys.path_hooks.insert(0, finder)
        sys.path_importer_cache.pop(TOOLS, None)


def run(path: str) -> None:
    """Runs the tool whose name is that of a file, and ends with its status."""
    from vindaesk.common import ending

    def main(words: object) -> int:
        # as `importlib.import_module` does, which takes a millisecond to be loaded; signals are taken meanwhile too
        name = "vindaesk.command_line." + os.path.basename(os.path.realpath(path))
        status: int = __import__(name, fromlist=["main"]).main(words)
        return status

    ending.call(main)


def start() -> None:
    """Carries out the words of `vindaesk`."""
    from vindaesk.command_line import main

    main.run()


def leave_old_python() -> None:
    """Goes on with the Python of PATH, where that is another one, or ends."""
    import shutil

    other = shutil.which("python3")
    if other and os.path.realpath(other) != os.path.realpath(sys.executable):
        os.execv(other, [other, os.path.join(TOOLS, "entry.py")] + sys.argv[1:])
    sys.exit("vindaesk: Python %d.%d or later is needed, and %s is %d.%d" % (LEAST + (sys.executable,) + sys.version_info[:2]))


prepare()
if __name__ == "__main__":
    if sys.version_info < LEAST:
        leave_old_python()
    start()

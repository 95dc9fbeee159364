"""What packages have in them, as files by their paths. The same package of Python modules is in each of them, with the
program and what the tools read in its folder `share`:

    bin/vindaesk, bin/vindaesk-TOOL       commands, in what is no wheel
    lib/vindaesk/entry.py                 how `vindaesk` begins
    lib/vindaesk/vindaesk/                the package of tools
    lib/vindaesk/vindaesk/share/          the program, the shared library of C, VERSION, COMMIT, PROVENANCE, and the
                                          pages that `explain` reads
    include/, lib/, lib/pkgconfig/        what programs in C are compiled with, in what is no wheel
    share/vindaesk/web/                   the WebAssembly module and its loader, in what is no wheel
    share/man/man1/, share/bash-completion/, share/zsh/, share/fish/
"""
import filecmp
import gzip
import io
import os
from dataclasses import dataclass
from typing import Dict, Iterable, List

from ..common import files, places
from ..common.failures import Failure, NOT_RUN
from ..common.places import PACKAGE, TOP
from ..provenance import dist
from ..provenance.dist import ARCHIVE, LIBRARY as LIBRARY_OF_C
from . import completions, manual
from .commands import Command

LIBRARY = "lib/vindaesk"
PROGRAM = "view_tool"
# what the tools read beside their modules
READ = ("VERSION", "docs/SCRIPT.md", "docs/FORMATS.md", "docs/COMING-FROM-ANDROID.md")
PROVENANCE = "dist/PROVENANCE"
# what programs in C are compiled with
HEADER, DESCRIPTION = "include/vindaesk.h", "include/vindaesk.pc.in"
# what pages in a browser load
WEB, LOADER = "share/vindaesk/web", "bindings/web/vindaesk.mjs"
# what users read
PAGES = ("README.md", "LICENSE", "CHANGELOG.md", "docs", "examples", "bindings")
# what is no source, and of the sources what is for a checkout alone
MADE = ("__pycache__", "share", "vindaesk.egg-info")
SKIPPED = (*MADE, "installing", "install.py", "release.py", "catalogue.py")
TOOL = """#!%(python)s
\"\"\"Calls a tool of %(library)s beside the folder of this file.\"\"\"
import os
import sys

sys.path.insert(0, os.path.join(os.path.dirname(os.path.dirname(os.path.realpath(__file__))), *%(parts)r))

from vindaesk.command_line import entry_points

entry_points.%(name)s()
"""
# the end of a file's name until it is whole
NEW = ".new"
# where the checkout's `vindaesk` and the installed one find what they start, and Python
ENTRY, ENTRY_INSTALLED = '"$top/tools/entry.py"', '"$top/../%s/entry.py"' % LIBRARY
PYTHON, ANY_PYTHON = "exec python3 ", "/usr/bin/env python3"


@dataclass(frozen=True)
class File:
    """A file of a package, and whether it can be called; or a symbolic link, which has no bytes, and where it leads."""

    body: bytes
    is_command: bool = False
    leads_to: str = ""


Contents = Dict[str, File]


def packed(body: bytes) -> bytes:
    """A file packed by gzip, without a date and a name, as Debian's policy asks for."""
    whole = io.BytesIO()
    with gzip.GzipFile(filename="", mode="wb", compresslevel=9, fileobj=whole, mtime=0) as file:
        file.write(body)
    return whole.getvalue()


def below(top: str, path: str, skipped: Iterable[str] = ()) -> Contents:
    """A file below a folder, or all files of a folder there, besides hidden and skipped ones, by their paths below
    `top`."""
    whole = os.path.join(top, path)
    if not os.path.isdir(whole):
        return {path: File(files.read(whole))}
    found: Contents = {}
    for name in sorted(os.listdir(whole)):
        if not name.startswith(".") and name not in skipped:
            found.update(below(top, os.path.join(path, name), skipped))
    return found


def moved(contents: Contents, folder: str) -> Contents:
    """The same files below a folder."""
    return {os.path.join(folder, path): it for path, it in contents.items()}


def shared(program: str, commit: str) -> Contents:
    """What the package's folder `share` has."""
    found: Contents = {PROGRAM: File(files.read(program), is_command=True)}
    if os.path.exists(beside(program, LIBRARY_OF_C)):
        found[LIBRARY_OF_C] = File(files.read(beside(program, LIBRARY_OF_C)))
    for path in READ:
        found.update(below(TOP, path))
    if os.path.exists(os.path.join(TOP, PROVENANCE)):
        found["PROVENANCE"] = File(files.read(os.path.join(TOP, PROVENANCE)))
    found["COMMIT"] = File(commit.encode() + b"\n")
    return found


def beside(program: str, name: str) -> str:
    """The path of a file that comes with a program: beside it, or in dist/ where that has the same program."""
    path = os.path.join(os.path.dirname(program), name)
    is_of_dist = not os.path.exists(path) and os.path.exists(dist.PROGRAM) and filecmp.cmp(program, dist.PROGRAM, shallow=False)
    return os.path.join(dist.FOLDER, name) if is_of_dist else path


def for_c(program: str) -> Contents:
    """What programs in C are compiled with, below a prefix that has lib/vindaesk too, where the libraries are beside
    the program."""
    if not all(os.path.exists(beside(program, it)) for it in (ARCHIVE, LIBRARY_OF_C)):
        return {}
    description = files.read(os.path.join(TOP, DESCRIPTION))
    return {
        HEADER: File(files.read(os.path.join(TOP, HEADER))),
        "lib/" + ARCHIVE: File(files.read(beside(program, ARCHIVE))),
        "lib/" + LIBRARY_OF_C: File(b"", leads_to=os.path.join("vindaesk", "vindaesk", "share", LIBRARY_OF_C)),
        "lib/libvindaesk.so": File(b"", leads_to=LIBRARY_OF_C),
        "lib/pkgconfig/vindaesk.pc": File(description.replace(b"@VERSION@", places.version().split(" ")[1].encode())),
    }


def for_pages(program: str) -> Contents:
    """What pages in a browser and Node load, below the same prefix, where the WebAssembly module is beside the program."""
    path = beside(program, dist.MODULE)
    if not os.path.exists(path):
        return {}
    return moved({dist.MODULE: File(files.read(path)), os.path.basename(LOADER): File(files.read(os.path.join(TOP, LOADER)))}, WEB)


def for_others(program: str) -> Contents:
    """What other programs use."""
    return {**for_c(program), **for_pages(program)}


def package(program: str, commit: str) -> Contents:
    """The package of tools, as the folder `vindaesk` that Python imports."""
    top, name = os.path.split(PACKAGE)
    return {**below(top, name, SKIPPED), **moved(shared(program, commit), os.path.join(name, "share"))}


def pages() -> Contents:
    """What users read: pages, examples, the licence."""
    found: Contents = {}
    for path in PAGES:
        found.update(below(TOP, path))
    return found


def launcher(python: str) -> File:
    """The command `vindaesk`: that of the checkout, for a folder `bin`."""
    text = files.read(os.path.join(TOP, "vindaesk")).decode()
    if ENTRY not in text or PYTHON not in text:
        raise Failure("the file vindaesk starts something else than %s by %s" % (ENTRY, PYTHON), NOT_RUN)
    words = "exec %s " % python.split()[-1]
    return File(text.replace(ENTRY, ENTRY_INSTALLED).replace(PYTHON, words).encode(), is_command=True)


def scripts(commands: List[Command], python: str) -> Contents:
    """What is called, for commands, by a Python."""
    found = {}
    for it in commands:
        words = {"python": python, "library": LIBRARY, "parts": LIBRARY.split("/"), "name": it.name.replace("-", "_")}
        found["bin/" + it.called()] = File((TOOL % words).encode(), is_command=True) if it.name else launcher(python)
    return found


def library(package_files: Contents) -> Contents:
    """What the folder lib/vindaesk has."""
    return {**package_files, **below(os.path.join(TOP, "tools"), "entry.py")}


def help_files(commands: List[Command], date: int) -> Contents:
    """Manual pages and completions."""
    texts = {"share/man/man1/%s.1" % it.called(): manual.page(it, commands, date) for it in commands}
    texts.update(completions.all_shells(commands))
    return {path: File(text.encode()) for path, text in texts.items()}


def prefixed(package_files: Contents, commands: List[Command], date: int) -> Contents:
    """What is below a prefix, from which it runs wherever it is copied: the package, commands, and help files."""
    return {
        **moved(library(package_files), LIBRARY), **scripts(commands, ANY_PYTHON), **help_files(commands, date)
    }


def make_folder(path: str) -> None:
    """Makes a folder that all may read, with those above it."""
    if not os.path.isdir(path):
        make_folder(os.path.dirname(path))
        os.mkdir(path)
        os.chmod(path, 0o755)


def write(contents: Contents, folder: str) -> None:
    """Writes files below a folder, each with the rights that all may have, in the place of one that may be there."""
    for path, it in contents.items():
        whole = os.path.abspath(os.path.join(folder, path))
        make_folder(os.path.dirname(whole))
        if it.leads_to:
            os.symlink(it.leads_to, whole + NEW)
        else:
            with open(whole + NEW, "wb") as file:
                file.write(it.body)
            os.chmod(whole + NEW, 0o755 if it.is_command else 0o644)
        os.replace(whole + NEW, whole)

"""Makes the libraries of C from the crate `vindaesk_c`, below out/native or below the folder that it is given:

    PYTHONPATH=tools python3 -m vindaesk.building.library [FOLDER]

    FOLDER/include/vindaesk.h
    FOLDER/lib/libvindaesk.a, libvindaesk.so, libvindaesk.so.0
    FOLDER/lib/pkgconfig/vindaesk.pc

Both libraries have the one object of the crate, the one of the kit that asks the C library for memory and what these
need of libgcc, and show no symbol but those of the header. The kit's own tools make them, so that they are the same
bytes wherever that is done. Crates that are not built yet are proved first.
"""
import functools
import os
import re
import shutil
import subprocess
import sys
import tempfile
from typing import List, Optional, Sequence

from ..common import ending, files, places
from ..common.failures import Failure, NOT_BUILT
from ..common.places import TOP
from ..provenance.dist import ARCHIVE, LIBRARY
from . import build, crates

NAME = "vindaesk_c"
FOLDER = os.path.join(TOP, "out", "native")
HEADER = os.path.join(TOP, "include", "vindaesk.h")
DESCRIPTION = os.path.join(TOP, "include", "vindaesk.pc.in")
# the name by which programs are linked with the shared library
LINKED = "libvindaesk.so"
EXPORTED = re.compile(r"^uint8_t (vindaesk_\w+)\(", re.M)
HARDENED = ("-z", "relro", "-z", "now", "-z", "noexecstack", "-z", "defs")


def called(words: List[str], folder: str, executable: Optional[str] = None) -> bytes:
    """What a command writes in a folder; where it fails, the failure has its last lines."""
    try:
        ended = subprocess.run(words, executable=executable, cwd=folder, stdout=subprocess.PIPE, stderr=subprocess.STDOUT)
    except FileNotFoundError:
        raise Failure("there is no %s on PATH" % words[0], NOT_BUILT)
    if ended.returncode:
        last = ended.stdout.decode("utf-8", "replace").strip().splitlines()[-20:]
        raise Failure("`%s` has failed:\n%s" % (" ".join(words), "\n".join(last)), NOT_BUILT)
    return ended.stdout


@functools.lru_cache(maxsize=None)
def kit() -> str:
    """The folder of the Rattle kit."""
    if not shutil.which("rt"):
        raise Failure("there is no rt on PATH", NOT_BUILT)
    return os.path.dirname(called(["rt", "doc"], TOP).decode().strip())


def tool(words: List[str], folder: str) -> None:
    """Calls a tool of LLVM, all of which are in one file of the kit."""
    called(words, folder, os.path.join(kit(), "toolchain", "bin", "clang"))


def exported() -> List[str]:
    """The functions that the header declares."""
    return EXPORTED.findall(files.read(HEADER).decode())


def words_of(top: str, to: str) -> List[str]:
    """How the kit's compiler proves and compiles the crate over the libraries of a checkout, as `rt` calls it."""
    known, at = crates.read(top), kit()
    uses = {it: os.path.join(top, "crates", it, "out", "rlib") for it in crates.below(known, NAME)}
    words = [os.path.join(at, "bin", "rattle"), "build", "--crate-name", NAME, os.path.join("src", "lib.rt")]
    words += ["--crate-type", "staticlib", "--extern", "std=" + os.path.join(at, "rlibs", "std.rlib")]
    words += [it for name in known[NAME].uses for it in ("--extern", "%s=%s" % (name, os.path.join(uses[name], name + ".rlib")))]
    words += [it for folder in (os.path.join(at, "rlibs"), *uses.values()) for it in ("-L", "dependency=" + folder)]
    words += ["--antt-project", os.path.join(at, "rattle", "logic", "antt-project.json")]
    words += ["--logic-built", os.path.join(at, "logic_built"), "--links", NAME + "="]
    return [*words, "--backend", "llvm", "--toolchain", os.path.join(at, "toolchain"), "-o", to]


def compiled(top: str, to: str) -> None:
    """Proves the crate again and compiles it, over the libraries that `rt ci` has left in a checkout: `rt ci` itself
    makes no archive."""
    called(words_of(top, to), os.path.join(top, "crates", NAME))


def built() -> str:
    """The archive of the crate in this checkout, with all that it uses proved and built where that is not done yet."""
    build.run_for(NAME)
    return os.path.join(TOP, "crates", NAME, "out", "lib%s.a" % NAME)


def link(archive: str, folder: str) -> None:
    """Makes both libraries in a folder of an archive of the crate."""
    requests = os.path.join(kit(), "c", "liblibc_c.a")
    with tempfile.TemporaryDirectory(prefix="vindaesk-library-") as work:
        tool(["llvm-ar", "x", os.path.abspath(archive), NAME + ".o"], work)
        tool(["llvm-ar", "x", requests, "heap.pic.o"], work)
        # libgcc has what no instruction does, as a division of 128 bits
        libgcc = os.path.join(kit(), "toolchain", "lib", "libgcc.a")
        tool(["ld.lld", "-r", "-o", "vindaesk.o", NAME + ".o", "heap.pic.o", libgcc], work)
        tool(["llvm-objcopy", *("--keep-global-symbol=" + it for it in exported()), "vindaesk.o"], work)
        tool(["llvm-ar", "rcsD", ARCHIVE, "vindaesk.o"], work)
        libc = os.path.join(kit(), "toolchain", "lib", "libc.so.6")
        words = ["ld.lld", "-shared", "-soname", LIBRARY, *HARDENED, "--build-id=sha1", "--hash-style=gnu"]
        tool([*words, "-o", LIBRARY, "vindaesk.o", libc], work)
        for name in (ARCHIVE, LIBRARY):
            files.replace(os.path.join(folder, name), files.read(os.path.join(work, name)))


def description() -> bytes:
    """What `pkg-config` reads."""
    return files.read(DESCRIPTION).replace(b"@VERSION@", places.version().split(" ")[1].encode())


def make(folder: str, archive: str) -> None:
    """Makes all that is below a folder."""
    library, package, include = (os.path.join(folder, *it) for it in (["lib"], ["lib", "pkgconfig"], ["include"]))
    for it in (package, include):
        os.makedirs(it, exist_ok=True)
    link(archive, library)
    linked = os.path.join(library, LINKED)
    files.remove(linked)
    os.symlink(LIBRARY, linked)
    files.replace(os.path.join(include, "vindaesk.h"), files.read(HEADER))
    files.replace(os.path.join(package, "vindaesk.pc"), description())


def main(words: Optional[Sequence[str]] = None) -> int:
    given = sys.argv[1:] if words is None else words
    if len(given) > 1 or list(given) in (["-h"], ["--help"]):
        print(__doc__.rstrip(), file=sys.stderr if len(given) > 1 else sys.stdout)
        return 2 if len(given) > 1 else 0
    folder = os.path.abspath(given[0]) if given else FOLDER
    make(folder, built())
    print("%s: include/vindaesk.h, lib/%s, lib/%s and lib/pkgconfig/vindaesk.pc" % (folder, ARCHIVE, LINKED))
    return 0


if __name__ == "__main__":
    ending.call(main)

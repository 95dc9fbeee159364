"""Makes the WebAssembly module of the crate `vindaesk_c`, out/web/vindaesk.wasm or the file that it is given:

    PYTHONPATH=tools python3 -m vindaesk.building.web_module [FILE]

The kit's compiler makes no WebAssembly of a crate that takes memory. So it compiles the crate for x86-64, as for the
libraries of C, and the module in LLVM's language that it passes to clang on the way is kept. With the layout of data and
the target of wasm64 in place of those of x86-64, where each type has the same size and place, the same clang makes
WebAssembly of it. It is linked with bindings/web/heap.c, which takes the place of malloc, and with what clang calls for
numbers of 128 bits, from Debian's package libclang-rt-14-dev-wasm64. Crates that are not built yet are proved first.
"""
import glob
import os
import re
import sys
import tempfile
from typing import List, Optional, Sequence, Tuple

from ..common import ending, files
from ..common.failures import Failure, NOT_BUILT
from ..common.places import TOP
from . import build, library

FILE = os.path.join(TOP, "out", "web", "vindaesk.wasm")
HEAP = os.path.join(TOP, "bindings", "web", "heap.c")
# what the heap has for the loader
OF_HEAP = ("vindaesk_take", "vindaesk_free")
TARGET = "wasm64-unknown-unknown"
LAYOUT = "e-m:e-p:64:64-p10:8:8-p20:8:8-i64:64-i128:128-n32:64-S128-ni:1:10:20"
# what is there for x86-64 alone, each with what takes its place
FOR_WASM = (
    (re.compile(r'^target datalayout = ".*-i64:64-i128:128-.*"$', re.M), 'target datalayout = "%s"' % LAYOUT),
    (re.compile(r'^target triple = "x86_64-unknown-linux-gnu"$', re.M), 'target triple = "%s"' % TARGET),
    (re.compile(r' "probe-stack"="inline-asm" "stack-probe-size"="\d+" "target-cpu"="x86-64-v2"'), ""),
)
OF_X86 = re.compile(r"llvm\.x86|\basm\b|x86_fp80")
# as the kit calls clang for wasm64
FLAGS = ("--target=" + TARGET, "-mcpu=lime1", "-mllvm", "-expand-div-rem-bits=64", "-mllvm", "-expand-fp-convert-bits=64",
         "-ffunction-sections", "-fdata-sections", "-mllvm", "-trap-unreachable", "--no-default-config")
LINKED = ("wasm-ld", "-mwasm64", "--no-entry", "--gc-sections", "--stack-first", "-z", "stack-size=1048576")
# compiler-rt's archive, in any version of LLVM
NUMBERS = "/usr/lib/llvm-*/lib/clang/*/lib/wasi/libclang_rt.builtins-wasm64.a"
# keeps what it is to compile, and compiles it
KEEPING = """#!/bin/sh
cp module.bc '%s'
exec '%s' "$@"
"""


def toolchain(folder: str, kept: str) -> str:
    """A folder with the kit's tools, of which clang keeps the module that it is given."""
    own = os.path.join(library.kit(), "toolchain")
    made = os.path.join(folder, "toolchain")
    os.makedirs(os.path.join(made, "bin"))
    os.symlink(os.path.join(own, "lib"), os.path.join(made, "lib"))
    clang = os.path.join(own, "bin", "clang")
    for name in ("ld.lld", "llvm-ar"):
        os.symlink(clang, os.path.join(made, "bin", name))
    path = os.path.join(made, "bin", "clang")
    files.replace(path, (KEEPING % (kept, clang)).encode())
    os.chmod(path, 0o755)
    return made


def compiled(top: str, folder: str) -> Tuple[str, str]:
    """Proves and compiles the crate over the libraries of a checkout: its archive, and the module that the kit's
    compiler passes to clang on the way."""
    archive, kept = os.path.join(folder, library.NAME + ".a"), os.path.join(folder, "module.bc")
    words = library.words_of(top, archive)
    words[words.index("--toolchain") + 1] = toolchain(folder, kept)
    library.called(words, os.path.join(top, "crates", library.NAME))
    return archive, kept


def for_wasm(text: str) -> str:
    """The text of a module, for wasm64."""
    for form, other in FOR_WASM:
        text, count = form.subn(other, text)
        if not count:
            raise Failure("the kit's module has nothing of the form %s" % form.pattern, NOT_BUILT)
    found = OF_X86.search(text)
    if found:
        raise Failure("the kit's module has what is for x86-64 alone: %s" % found[0], NOT_BUILT)
    return text


def numbers() -> str:
    """The path of the archive with what clang calls for numbers of 128 bits."""
    found = sorted(glob.glob(NUMBERS))
    if not found:
        raise Failure("there is no %s: install libclang-rt-14-dev-wasm64, or a later one" % NUMBERS, NOT_BUILT)
    return found[-1]


def link(kept: str, to: str, folder: str) -> None:
    """Makes the WebAssembly module of the one that was kept."""
    text, other = (os.path.join(folder, name) for name in ("module.ll", "wasm.ll"))
    library.tool(["clang", "-x", "ir", kept, "-S", "-emit-llvm", "-Xclang", "-disable-llvm-passes", "-o", text], folder)
    files.replace(other, for_wasm(files.read(text).decode()).encode())
    library.tool(["clang", *FLAGS, "-O3", "-c", "-x", "ir", other, "-o", "module.o"], folder)
    library.tool(["clang", *FLAGS, "-O2", "-ffreestanding", "-nostdinc", "-Wall", "-Werror", "-c", HEAP, "-o", "heap.o"], folder)
    # all tools of LLVM are in one file, which acts as the one by whose name it is called
    linker = os.path.join(folder, "wasm-ld")
    os.symlink(os.path.join(library.kit(), "toolchain", "bin", "clang"), linker)
    exports = ["--export=" + it for it in (*library.exported(), *OF_HEAP)]
    library.called([linker, *LINKED[1:], *exports, "-o", "linked.wasm", "module.o", "heap.o", numbers()], folder)
    os.makedirs(os.path.dirname(to), exist_ok=True)
    files.replace(to, files.read(os.path.join(folder, "linked.wasm")))


def main(words: Optional[Sequence[str]] = None) -> int:
    given: List[str] = list(sys.argv[1:] if words is None else words)
    if len(given) > 1 or given in (["-h"], ["--help"]):
        print(__doc__.rstrip(), file=sys.stderr if len(given) > 1 else sys.stdout)
        return 2 if len(given) > 1 else 0
    to = os.path.abspath(given[0]) if given else FILE
    build.run_for(library.NAME)
    with tempfile.TemporaryDirectory(prefix="vindaesk-web-") as folder:
        link(compiled(TOP, folder)[1], to, folder)
    print(to)
    return 0


if __name__ == "__main__":
    ending.call(main)

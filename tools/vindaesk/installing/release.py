"""The packages of a release, and the checksums of them."""
import hashlib
import os
import shutil
import tempfile
from typing import List

from ..common import files, places
from . import contents, debian, needs, sources, tarball, wheel
from .commands import Command

SYSTEM = "x86_64-linux"
SUMS = "SHA256SUMS"


def write_tarball(out: str, found: contents.Contents, date: int) -> str:
    """Writes the tarball of files into a folder; its path."""
    stem = "%s-%s" % (places.version().replace(" ", "-"), SYSTEM)
    found = contents.moved({**found, **contents.pages()}, stem)
    path = os.path.join(out, stem + ".tar.gz")
    files.replace(path, tarball.written(found, date))
    return path


def sums(paths: List[str]) -> bytes:
    """The checksums of files, in the form of `sha256sum`."""
    lines = ["%s  %s\n" % (hashlib.sha256(files.read(it)).hexdigest(), os.path.basename(it)) for it in sorted(paths)]
    return "".join(lines).encode()


def write(folder: str, program: str, commit: str, commands: List[Command]) -> List[str]:
    """Makes all packages, in the place of a folder that may be there; the names of their files. The folder is put there
    whole."""
    date, asked = sources.date(), needs.of_program(program)
    above, name = os.path.split(os.path.abspath(folder))
    os.makedirs(above, exist_ok=True)
    with tempfile.TemporaryDirectory(prefix="." + name + ".", dir=above) as place:
        made, before = os.path.join(place, "new"), os.path.join(place, "old")
        os.mkdir(made)
        package, for_others = contents.package(program, commit), contents.for_others(program)
        paths = [
            write_tarball(made, {**contents.prefixed(package, commands, date), **for_others}, date),
            debian.write(made, debian.all_files(package, for_others, commands, date), asked, date),
            wheel.write(made, program, commit, date),
        ]
        files.replace(os.path.join(made, SUMS), sums(paths))
        if os.path.lexists(folder):
            os.rename(folder, before)
        os.rename(made, folder)
        shutil.rmtree(before, ignore_errors=True)
    return sorted(os.path.basename(it) for it in [*paths, SUMS])

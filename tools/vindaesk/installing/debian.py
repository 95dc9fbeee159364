"""A package for Debian and what comes of it, by `dpkg-deb`. The modules are private ones, as Debian's Python policy has
them: in /usr/lib/vindaesk, since the program beside them is for one kind of processor."""
import email.utils
import hashlib
import os
import shutil
import subprocess
import tempfile
from typing import List

from ..common import files, places
from ..common.failures import Failure, NOT_RUN
from ..common.places import TOP
from . import contents
from .commands import Command
from .contents import Contents, File, packed
from .needs import Needs

ARCHITECTURE = "amd64"
MAINTAINER = "Vindaesk maintainers <maintainers@users.noreply.vindaesk.example>"
PYTHON = "/usr/bin/python3"
DOC = "usr/share/doc/vindaesk"
# what `pkg-config` reads, below a prefix, and below that of Debian
DESCRIPTION, OF_MACHINE = "lib/pkgconfig/vindaesk.pc", "lib/x86_64-linux-gnu/pkgconfig/vindaesk.pc"
# pages that are there under Debian's names, or in no package
RENAMED = ("LICENSE", "CHANGELOG.md")
CONTROL = """Package: vindaesk
Version: %(version)s
Architecture: %(architecture)s
Maintainer: %(maintainer)s
Installed-Size: %(size)d
Depends: %(depends)s
Suggests: python3-pil
Section: devel
Priority: optional
Description: run Android layouts without a device or an emulator
 Vindaesk takes a script, or compiled layout files, and prints the exact bounds,
 touch dispatch and pixels of every view. It is for screenshot tests, lint of
 layouts, design tools and interface test farms. The core is a program that is
 proved correct: whatever work it saves from frame to frame, its output is that
 of laying out and painting everything anew.
"""
COPYRIGHT = """Format: https://www.debian.org/doc/packaging-manuals/copyright-format/1.0/
Upstream-Name: vindaesk

Files: *
Copyright: 2026 The Vindaesk maintainers
License: Apache-2.0
 On Debian systems, the full text of the Apache License, version 2.0, is in
 /usr/share/common-licenses/Apache-2.0.
"""
CHANGELOG = """vindaesk (%(version)s) unstable; urgency=medium

  * The program, the tools, pages and examples; changelog.gz has what changed.

 -- %(maintainer)s  %(date)s
"""
# a program that was stripped would be another one than that of dist/, which the proof built
OVERRIDES = """# byte for byte what its proof built, as PROVENANCE beside it says
vindaesk: unstripped-binary-or-object *
"""
# what dh_python3 would write for private modules: they are compiled when the package is set up, or when Python is newer
AFTER_UNPACKING = """#!/bin/sh
set -e
if [ "$1" = configure ] && command -v py3compile > /dev/null 2>&1; then
    py3compile -p vindaesk /usr/lib/vindaesk
fi
"""
BEFORE_REMOVAL = """#!/bin/sh
set -e
if command -v py3clean > /dev/null 2>&1; then
    py3clean -p vindaesk
else
    find /usr/lib/vindaesk -name __pycache__ -type d -prune -exec rm -r {} +
fi
"""
NEWER_PYTHON = """#!/bin/sh
set -e
if [ "$1" = rtupdate ]; then
    py3clean -p vindaesk /usr/lib/vindaesk
    py3compile -p vindaesk /usr/lib/vindaesk
fi
"""


def version() -> str:
    """The version of the package: that of the tools, below a package of it that Debian itself may have."""
    return places.version().split()[1] + "-0vindaesk1"


def documents(date: int) -> Contents:
    """Pages and examples, the licence and the changes."""
    pages = {path: it for path, it in contents.pages().items() if path not in RENAMED}
    words = {"version": version(), "maintainer": MAINTAINER, "date": email.utils.formatdate(date)}
    made = {
        "copyright": COPYRIGHT.encode(),
        "changelog.gz": packed(files.read(os.path.join(TOP, "CHANGELOG.md"))),
        "changelog.Debian.gz": packed((CHANGELOG % words).encode()),
    }
    return contents.moved({**pages, **{path: File(body) for path, body in made.items()}}, DOC)


def of_machine(for_others: Contents) -> Contents:
    """The files for other programs, with what `pkg-config` reads in the folder of this kind of machine, as Debian has
    it."""
    found = dict(for_others)
    described = found.pop(DESCRIPTION, None)
    if described:
        found[OF_MACHINE] = File(described.body.replace(b"${pcfiledir}/../..", b"${pcfiledir}/../../.."))
    return found


def all_files(package: Contents, for_others: Contents, commands: List[Command], date: int) -> Contents:
    """All files of the package, by their paths below the root, with those for other programs."""
    found = contents.moved(contents.library(package), "usr/lib/vindaesk")
    found.update(contents.moved({**contents.scripts(commands, PYTHON), **of_machine(for_others)}, "usr"))
    for path, it in contents.help_files(commands, date).items():
        if path.startswith("share/man/"):
            path, it = path + ".gz", File(packed(it.body))
        found["usr/" + path.replace("zsh/site-functions", "zsh/vendor-completions")] = it
    found.update(documents(date))
    found["usr/share/lintian/overrides/vindaesk"] = File(OVERRIDES.encode())
    found["usr/share/python3/runtime.d/vindaesk.rtupdate"] = File(NEWER_PYTHON.encode(), is_command=True)
    return found


def control(found: Contents, needs: Needs) -> Contents:
    """What the package says of itself, in the folder DEBIAN."""
    versions = {"libc6": " (>= %s)" % needs.version()}
    depends = ", ".join([*(it + versions.get(it, "") for it in needs.packages), "python3 (>= 3.8)"])
    size = sum(len(it.body) + 1023 >> 10 for it in found.values())
    words = {"version": version(), "architecture": ARCHITECTURE, "maintainer": MAINTAINER, "size": size,
             "depends": depends}
    own = [(path, it) for path, it in sorted(found.items()) if not it.leads_to]
    sums = ["%s  %s\n" % (hashlib.md5(it.body).hexdigest(), path) for path, it in own]
    return contents.moved({
        "control": File((CONTROL % words).encode()),
        "md5sums": File("".join(sums).encode()),
        "postinst": File(AFTER_UNPACKING.encode(), is_command=True),
        "prerm": File(BEFORE_REMOVAL.encode(), is_command=True),
        # the loader has a list of the libraries that there are
        "triggers": File(b"activate-noawait ldconfig\n"),
    }, "DEBIAN")


def write(out: str, found: Contents, needs: Needs, date: int) -> str:
    """Writes the package of these files into a folder; its path."""
    if not shutil.which("dpkg-deb"):
        raise Failure("dpkg-deb makes the package for Debian, and is not on PATH: apt-get install dpkg", NOT_RUN)
    path = os.path.join(out, "vindaesk_%s_%s.deb" % (version(), ARCHITECTURE))
    with tempfile.TemporaryDirectory() as place:
        folder = os.path.join(place, "root")
        contents.write({**found, **control(found, needs)}, folder)
        # all packed by one thread, since the bytes depend on how many there are
        words = ["dpkg-deb", "--root-owner-group", "--threads-max=1", "-Zxz", "--build", folder, path]
        ended = subprocess.run(words, stdout=subprocess.DEVNULL, stderr=subprocess.PIPE,
                               env={**os.environ, "SOURCE_DATE_EPOCH": str(date)})
    if ended.returncode:
        raise Failure("dpkg-deb ends with status %d: %s" % (ended.returncode, ended.stderr.decode().strip()), NOT_RUN)
    return path

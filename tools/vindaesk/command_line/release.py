"""Makes the packages of a release: a tarball, a package for Debian, a wheel, and SHA256SUMS of them.

They have the program of dist/, which has to be that of these sources, as they are in a commit. The same commit gives
the same bytes, wherever and whenever they are made: dates are that of the variable SOURCE_DATE_EPOCH, or of the commit.
dpkg-deb makes the package for Debian, and Python's setuptools and wheel the wheel.

The status is 0, or 2 where the program is not that of the sources, or something cannot be made; then what was there
before stays.
"""
import argparse
import os
from typing import Optional, Sequence

from ..common import failures
from ..common.failures import Failure
from ..common.places import TOP
from ..installing import release, sources
from ..provenance import dist
from ..provenance.sources import Listing
from . import arguments, catalogue, version
from .uses import Purpose, Use

USE = Use(Purpose.PROJECT, "vindaesk release --help", "makes the packages of a release")

OUT = os.path.join(TOP, "out", "release")


def reader() -> argparse.ArgumentParser:
    """The arguments."""
    found = arguments.parser(__doc__)
    found.add_argument("--program", metavar="FILE", help="takes this program, whatever its sources are; for tries")
    found.add_argument("--out", metavar="DIR", default=OUT, help="where the packages go; out/release without it")
    return found


def released() -> str:
    """The program of dist/, if it is of the sources as they are, and all is as a commit has it."""
    if not dist.is_of(Listing()):
        why = "dist/ is not of these sources: ci/release renews it, and --program takes another program, for tries"
        raise Failure(why, failures.NOT_RUN)
    if dist.fault():
        raise Failure(dist.fault(), failures.NOT_RUN)
    for path in sources.uncommitted():
        raise Failure("%s is not as the commit has it: packages are made of a commit" % path, failures.NOT_RUN)
    return dist.PROGRAM


def main(words: Optional[Sequence[str]] = None) -> int:
    given = reader().parse_args(words)
    program = os.path.abspath(given.program) if given.program else released()
    for name in release.write(os.path.abspath(given.out), program, version.commit(), catalogue.every()):
        print(os.path.join(given.out, name))
    return 0

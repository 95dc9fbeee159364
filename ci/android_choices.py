#!/usr/bin/env python3
"""Writes what Android's own library says of configurations (see android_assets.py), for tests where it is not there:
ci/tests/android_choices.txt and ci/tests/android_qualifiers.txt.

The first line of the choices is the digest of the questions. Each digit after it is a random pair for a device: 4 where
the first one matches, 2 where it is better than the second, 1 where it is more specific. A line of the qualifiers is a
text and the bytes of its configuration."""
import hashlib
import os
from typing import Iterable, List, Tuple

from running import TOP  # before what finds the package of tools/ by it

import android_assets
import made_apps
from random_configurations import devices
from vindaesk.resources.packed import packed

SEED, COUNT, WIDTH = 11, 500, 100


def questions() -> Tuple[List[str], str]:
    """The questions to the library, and their digest."""
    found = []
    for device, pairs in devices(SEED, COUNT):
        found.append("c %s %s" % (packed(device).hex(), android_assets.locale_tag(device)))
        found += ["m %s %s" % (packed(one).hex(), packed(other).hex()) for one, other in pairs]
    return found, hashlib.sha256("\n".join(found).encode()).hexdigest()


def put(name: str, lines: Iterable[str]) -> None:
    """Writes a file of the tests."""
    with open(os.path.join(TOP, "ci", "tests", name), "w", encoding="ascii") as file:
        file.write("\n".join(lines) + "\n")


def main() -> None:
    app = [os.path.join(TOP, "examples", "inbox", "inbox.apk")]
    asked, digest = questions()
    digits = "".join(str(int(it.replace(" ", ""), 2)) for it in android_assets.ask(app, asked) if it != ".")
    put("android_choices.txt", [digest] + [digits[at : at + WIDTH] for at in range(0, len(digits), WIDTH)])
    bytes_of = android_assets.ask(app, ["q " + it for it in made_apps.QUALIFIERS])
    put("android_qualifiers.txt", map(" ".join, zip(made_apps.QUALIFIERS, bytes_of)))


if __name__ == "__main__":
    main()

"""What git says of the checkout."""
from __future__ import annotations

import subprocess

from ..common.places import TOP


def lines(*words: str) -> list[str] | None:
    """The lines that git prints, which takes no lock; None where it cannot say."""
    try:
        ended = subprocess.run(
            ["git", "--no-optional-locks", "-C", TOP, "-c", "core.quotePath=false", *words], stdout=subprocess.PIPE,
            stderr=subprocess.DEVNULL
        )
    except OSError:
        return None
    return None if ended.returncode else ended.stdout.decode("utf-8", "replace").splitlines()

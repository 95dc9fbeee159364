"""The resources of Android's framework: those of a file, or the part of them that is with the tools.

That part is framework.apk, which ci/framework.py of the repository makes of Android 10's framework-res.apk (Debian's
package android-framework-res): attributes, styles, themes, and the values, colour lists and drawables that the
Material and DeviceDefault styles reach. Its licence is the Apache License 2.0, as its NOTICE says. What it does not
have, `--framework FILE` gives."""
import os
from typing import Optional

from .files import open_table
from .tables import Table

PATH = os.path.join(os.path.dirname(os.path.realpath(__file__)), "framework.apk")


def open_framework(path: Optional[str] = None) -> Table:
    """The table of a framework-res.apk, android.jar or resources.arsc, or that of the part that is with the tools."""
    return open_table(path or PATH)

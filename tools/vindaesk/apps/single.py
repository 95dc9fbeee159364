"""The source of a layout that is in no project: the only layout of one that is made for it."""
import os
import re

from ..common import files

RES, LAYOUT = os.path.join("res", "layout"), ".xml"
UNSAYABLE = re.compile(r"[^a-z0-9_]")


def name_of(path: str) -> str:
    """The name that a layout has by the name of its file, as Android takes it."""
    plain = UNSAYABLE.sub("_", os.path.splitext(os.path.basename(path))[0].lower())
    return plain if plain[:1].isalpha() else "l" + plain


def put(path: str, source: bytes, project: str) -> str:
    """Makes a project in a folder, whose only layout is this source. Returns the layout's name."""
    name = name_of(path)
    os.makedirs(os.path.join(project, RES), exist_ok=True)
    files.replace(os.path.join(project, RES, name + LAYOUT), source)
    return name

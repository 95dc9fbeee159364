"""The numbers of Android's public attributes, and of its public ids of views, by their names."""
import os
from typing import Dict

FILE = os.path.join(os.path.dirname(__file__), "platform_names.txt")
TYPES = {"attr": 0x01010000, "id": 0x01020000}


def read(kind: str) -> Dict[str, int]:
    """The numbers of a type, `attr` or `id`."""
    found: Dict[str, int] = {}
    with open(FILE, encoding="ascii") as file:
        rows = [line.split() for line in file if line.startswith(kind + " ")]
    for _, first, *names in rows:
        for count, name in enumerate(names):
            found[name] = TYPES[kind] + int(first, 16) + count
    return found


NUMBER_OF = read("attr")
NAME_OF = {number: name for name, number in NUMBER_OF.items()}
ID_OF = read("id")
ID_NAME_OF = {number: name for name, number in ID_OF.items()}

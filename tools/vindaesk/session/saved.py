"""Saved states, whose bytes docs/FORMATS.md has."""
import struct
from typing import Dict

START = 5
OFFSET, TEXT = 1, 2


def texts(state: bytes) -> Dict[int, str]:
    """The texts of a saved state that the program has taken or printed, by the ids of their views."""
    found: Dict[int, str] = {}
    place = START
    while place < len(state):
        number, kind = struct.unpack_from("<IB", state, place)
        place += 5
        if kind == TEXT:
            (length,) = struct.unpack_from("<H", state, place)
            found[number] = state[place + 2 : place + 2 + length].decode()
            place += 2 + length
        else:
            place += 4
    return found

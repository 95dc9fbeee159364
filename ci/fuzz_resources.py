#!/usr/bin/env python3
"""Changes tables of resources at random and reads all that they say: each run ends with values or with a Failure, in
little time.

    ci/fuzz_resources.py [RUNS [SEED [APP ..]]]

The tables are those of examples/, those that made_apps.py and table_writer.py make, or those of the apps that are
named."""
import glob
import os
import random
import struct
import sys
import time
from typing import Callable, List, Optional, Sequence, Tuple, TypeVar

from running import TOP, Checks  # before what finds the package of tools/ by it

import made_apps
import made_tables
from vindaesk.common.failures import Failure
from vindaesk.resources.devices import device
from vindaesk.resources.files import table_bytes
from vindaesk.resources.resources import Bag, Resources
from vindaesk.resources.tables import Table

RUNS, SEED, SHORT = 20000, 1, 300
# seconds that one run may take, and bytes of the tables that are changed
SLOW, LARGEST = 5, 200000
# numbers that are likely to do harm
NUMBERS = (0, 1, 3, 4, 7, 8, 0x7F, 0x80, 0xFF, 0x100, 0x7FFF, 0x8000, 0xFFFF, 0x10000, 0x7FFFFFFF, 0x80000000,
           0xFFFFFFFC, 0xFFFFFFFF)
DEVICES = [device(it) for it in ("", "de-rAT-sw600dp-night-hdpi", "ar-television-v29")]
Asked = TypeVar("Asked")
Said = TypeVar("Said")


def seeds(paths: Sequence[str]) -> List[bytes]:
    """The tables that are changed."""
    own = made_apps.paths() + sorted(glob.glob(os.path.join(TOP, "examples", "*", "*.arsc")))
    found = [table_bytes(it) for it in paths or own]
    found += [] if paths else list(made_tables.tables().values())
    return [it for it in found if len(it) <= LARGEST]


def flip(source: random.Random, data: bytearray) -> bytearray:
    """Other bits."""
    for _ in range(source.randint(1, 8)):
        at = source.randrange(len(data))
        data[at] ^= 1 << source.randrange(8)
    return data


def put(source: random.Random, data: bytearray) -> bytearray:
    """Other numbers."""
    for _ in range(source.randint(1, 4)):
        at = source.randrange(len(data) // 4) * 4
        wide = source.random() < 0.6
        number = source.choice(NUMBERS) if source.random() < 0.7 else source.randrange(len(data))
        struct.pack_into("<I" if wide else "<H", data, at if wide else at + source.choice((0, 2)),
                         number & (0xFFFFFFFF if wide else 0xFFFF))
    return data


def cut(source: random.Random, data: bytearray) -> bytearray:
    """Fewer bytes at the end, or in the middle."""
    start = source.randrange(len(data))
    return data[:start] if source.random() < 0.5 else data[:start] + data[start + source.randrange(1, 64) :]


def copy(source: random.Random, data: bytearray) -> bytearray:
    """A part over another one."""
    size = source.randrange(4, 400) & ~3
    start, end = (source.randrange(max(1, len(data) - size)) & ~3 for _ in range(2))
    data[end : end + size] = data[start : start + size]
    return data


def read_all(data: bytes) -> None:
    """Reads all that a table says, as the tools would."""
    table = Table(data, "changed.arsc")
    for it in DEVICES:
        resources = Resources([table], it)
        styles = []
        for number in resources.ids():
            entry = attempt(resources.entry, number)
            attempt(resources.name, number)
            attempt(resources.file, number)
            if entry is not None and entry.value is not None:
                attempt(str, entry.value)
                attempt(resources.resolve, entry.value)
            if entry is not None and entry.bag is not None:
                styles.append(number)
                attempt(Bag.format, entry.bag)
        for number in styles[:40]:
            theme = attempt(resources.theme, number)
            if theme is not None:
                for attribute in list(theme.items)[:100]:
                    attempt(theme.value, attribute)
        attempt(resources.find, "string/said")


def attempt(function: Callable[[Asked], Said], word: Asked) -> Optional[Said]:
    """What a function says, or nothing where it refuses: one resource that is wrong does not keep the others from
    being read."""
    try:
        return function(word)
    except Failure:
        return None


def is_failure(data: bytes) -> bool:
    """Whether a table is refused as a whole."""
    try:
        read_all(data)
        return False
    except Failure as failure:
        if not str(failure).startswith("changed.arsc: ") or "\n" in str(failure):
            raise AssertionError("it says %r" % str(failure)) from None
        return True


def fuzz(
    runs: int, seed: int, paths: Sequence[str] = (), say: Optional[Callable[[str], None]] = None
) -> Tuple[str, int, float]:
    """Why a run is wrong, or ""; how many tables were refused as a whole, and the longest time."""
    source, tables = random.Random(seed), seeds(paths)
    refused, longest = 0, 0.0
    for number in range(runs):
        data = bytearray(source.choice(tables))
        for _ in range(source.choice((1, 1, 1, 2, 3))):
            data = source.choice((flip, put, put, put, cut, copy))(source, data) or data
        began = time.process_time()
        try:
            refused += is_failure(bytes(data))
        except Exception as error:  # each other exception is a defect
            return "run %d of seed %d: %s: %s" % (number, seed, type(error).__name__, error), refused, longest
        longest = max(longest, time.process_time() - began)
        if longest > SLOW:
            return "run %d of seed %d took %.1f s" % (number, seed, longest), refused, longest
        if say and number % 500 == 499:
            say("%d runs, %d refused as a whole, longest %.2f s" % (number + 1, refused, longest))
    return "", refused, longest


def checks() -> Checks:
    yield "resources: %d changed tables" % SHORT, lambda: fuzz(SHORT, SEED)[0]


def main() -> int:
    words = sys.argv[1:]
    runs, seed = (int(words[at]) if len(words) > at else it for at, it in enumerate((RUNS, SEED)))
    why, refused, longest = fuzz(runs, seed, words[2:], print)
    print(why or "%d runs of seed %d: %d refused as a whole, longest %.2f s" % (runs, seed, refused, longest))
    return 1 if why else 0


if __name__ == "__main__":
    sys.exit(main())

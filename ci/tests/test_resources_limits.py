"""Hostile tables and archives: each is one sentence that names the file, in little time and memory."""
import os
import pathlib
import struct
import time
import tracemalloc
import zipfile
from typing import Callable

import made_tables
import pytest
import table_writer
from running import not_none
from table_writer import Bag, Package, Pool, Value, table
from vindaesk.common.failures import Failure
from vindaesk.resources import files, resources, tables
from vindaesk.resources.devices import device
from vindaesk.resources.resources import Resources
from vindaesk.resources.tables import Table

PLAIN = made_tables.configuration("")
WHOLE = made_tables.tables()["dense"]
SECONDS, BYTES = 20, 400000000


def refused(data: bytes, why: str) -> None:
    """A table is refused as a whole, with a sentence."""
    with pytest.raises(Failure) as caught:
        Table(data, "a.apk")
    assert str(caught.value).startswith("a.apk: ") and why in str(caught.value)


def test_no_table() -> None:
    refused(b"", "a chunk is cut short (at byte 0)")
    refused(b"\3\0\10\0\10\0\0\0", "this is no table of resources")
    refused(b"\2\0\14\0\15\0\0\0" + bytes(8), "a chunk of kind 0002 has a head of 12 and a size of 13 bytes")
    refused(b"\0" * 64, "a chunk of kind 0000 has a head of 0 and a size of 0 bytes")


def test_each_cut_is_refused_or_read() -> None:
    for size in range(0, len(WHOLE), 12):
        refused(WHOLE[:size], "")


@pytest.mark.parametrize("at,number,why", [
    (4, 0xFFFFFFFC, "a chunk of kind 0002"),
    (20, 0x01000000, "a pool of 16777216 strings does not fit"),
    (20, 0x40000000, "a pool of 1073741824 strings does not fit"),
    (32, 0x7FFFFFFC, "the strings of a pool are outside of its chunk"),
])
def test_wrong_numbers(at: int, number: int, why: str) -> None:
    data = bytearray(WHOLE)
    struct.pack_into("<I", data, at, number)
    refused(bytes(data), why)


def test_two_libraries_of_one_id() -> None:
    package = Package(2, "other")
    package.type(1, "string")
    package.put(0x10000, PLAIN, "a", Value(3, "a"))
    with pytest.raises(Failure, match="^b: its package other has the id of a shared library$"):
        Resources([Table(made_tables.library(), "a"), Table(table([package]), "b")], device())


def measured(work: Callable[[], object]) -> str:
    """What some work says, and that it takes no more than the limits."""
    tracemalloc.start()
    began = time.process_time()
    try:
        with pytest.raises(Failure) as caught:
            work()
        took, peak = time.process_time() - began, tracemalloc.get_traced_memory()[1]
    finally:
        tracemalloc.stop()
    assert took < SECONDS and peak < BYTES, (took, peak)
    return str(caught.value)


def test_strings_over_each_other() -> None:
    """A pool whose strings all are one long text."""
    pool = Pool(is_utf8=False)
    pool.add("x" * 1000000)
    data = pool.written()
    count = 4000
    head = struct.pack("<5I", count, 0, 0, 28 + 4 * count, 0)
    strings = table_writer.chunk(1, head, bytes(4 * count) + data[32:])
    package = Package(0x7F, "a")
    package.type(1, "string")
    package.put(0x10000, PLAIN, "a", Value(1, 0))
    whole = table_writer.chunk(2, struct.pack("<I", 1), strings + package.written(Pool()))
    texts = not_none(Table(whole, "a.apk").pool)

    def read() -> None:
        for index in range(count):
            texts.text(index)

    assert measured(read).startswith("a.apk: the strings of a pool lie over each other")


def test_a_large_bag_many_times(monkeypatch: pytest.MonkeyPatch) -> None:
    """All styles are one bag of many items."""
    monkeypatch.setattr(resources, "MAX_READ", 1 << 16)
    package = Package(0x7F, "a", "dense")
    package.type(1, "style")
    rows = [(0x7F020000 + it, Value(0x10, it)) for it in range(10000)]
    package.put(0x10000, PLAIN, "a", Bag(0, rows))
    for index in range(1, 300):
        package.put(0x10000 + index, PLAIN, "a", Value(0x10, 0))
    data = bytearray(table([package]))
    place = data.index(struct.pack("<HHI", 0x201, 84, len(data))[:4])
    for index in range(300):
        struct.pack_into("<I", data, place + 84 + 4 * index, 0)
    found = Resources([Table(bytes(data), "a.apk")], device())

    def read() -> None:
        for number in found.ids():
            found.style(number)

    assert measured(read) == "a.apk: more than %d values are read" % resources.MAX_READ


def test_many_configurations() -> None:
    """More types and configurations than a table may have."""
    package = Package(0x7F, "a")
    package.type(1, "string")
    for number in range(tables.MAX_CHUNKS + 1):
        package.entries[1, PLAIN[:28] + struct.pack("<I", number) + PLAIN[32:]] = {0: ("a", Value(0x10, number))}
    data = table([package])
    assert "more than %d types and configurations" % tables.MAX_CHUNKS in measured(lambda: Table(data, "a.apk"))


def archive(path: pathlib.Path, name: str, data: bytes) -> str:
    with zipfile.ZipFile(path, "w", zipfile.ZIP_DEFLATED) as file:
        file.writestr(name, data)
    return str(path)


def test_archives(tmp_path: pathlib.Path) -> None:
    with pytest.raises(Failure, match="it has no resources.arsc$"):
        files.open_table(archive(tmp_path / "a.apk", "other", b""))
    broken = archive(tmp_path / "b.apk", "resources.arsc", WHOLE)
    with open(broken, "r+b") as file:
        file.seek(60)
        file.write(b"\xff" * 40)
    with pytest.raises(Failure, match="b.apk: it cannot be unpacked: "):
        files.open_table(broken)
    with pytest.raises(OSError):
        files.open_table(str(tmp_path / "none.apk"))


def test_a_bomb(tmp_path: pathlib.Path) -> None:
    bomb = archive(tmp_path / "c.apk", "resources.arsc", bytes(files.MAX_TABLE + 1))
    assert os.path.getsize(bomb) < 200000
    why = "its resources.arsc has more than %d bytes" % files.MAX_TABLE
    assert measured(lambda: files.open_table(bomb)).endswith(why)


def test_a_long_list_of_files(tmp_path: pathlib.Path) -> None:
    path = archive(tmp_path / "d.apk", "resources.arsc", WHOLE)
    with open(path, "r+b") as file:
        data = file.read()
        file.seek(data.rindex(files.END) + files.LIST_SIZE)
        file.write(struct.pack("<I", files.MAX_LIST + 1))
    with pytest.raises(Failure, match="its list of files has more than"):
        files.open_table(path)

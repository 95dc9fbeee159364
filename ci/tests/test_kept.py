"""Results of stored cases that are kept by their keys."""
import os
from pathlib import Path
from unittest import mock

from vindaesk.testing import kept
from vindaesk.testing.kept import Kept


def key(number: int, part: str = "ab") -> str:
    return "%s%062x" % (part, number)


def test_what_is_kept_is_known(tmp_path: Path) -> None:
    it = Kept(str(tmp_path))
    assert not it.has(key(1))
    assert it.keep(key(1)) == it.keep(key(1)) == ""
    assert it.has(key(1)) and not it.has(key(2))


def test_another_process_makes_the_folder_first(tmp_path: Path) -> None:
    make = os.makedirs

    def makes_twice(path: str, exist_ok: bool = False) -> None:
        make(path)
        make(path, exist_ok=exist_ok)

    with mock.patch("os.makedirs", makes_twice):
        assert Kept(str(tmp_path)).keep(key(1)) == ""
    assert Kept(str(tmp_path)).has(key(1))


def test_a_place_that_cannot_be_written_is_named(tmp_path: Path) -> None:
    (tmp_path / "file").write_text("")
    assert Kept(str(tmp_path / "file")).keep(key(1)) == "Not a directory"


def test_the_oldest_go_first(tmp_path: Path) -> None:
    it = Kept(str(tmp_path))
    keys = [key(number) for number in range(9)] + [key(0, "cd")]
    for number, name in enumerate(keys):
        it.keep(name)
        os.utime(it.path(name), (number, number))
    with mock.patch.object(kept, "MOST", 8), mock.patch.object(kept, "REMAINING", 5):
        it.tidy(keys)
    assert [name for name in keys if os.path.exists(it.path(name))] == keys[4:]


def test_use_keeps_a_result(tmp_path: Path) -> None:
    it = Kept(str(tmp_path))
    it.keep(key(1))
    os.utime(it.path(key(1)), (1, 1))
    assert it.has(key(1)) and os.stat(it.path(key(1))).st_mtime > 1

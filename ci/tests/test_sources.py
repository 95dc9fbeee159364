"""The sources that a program is of: every change of one is seen, also where their checksum is kept."""
import os
from pathlib import Path
from typing import Callable, Dict

import pytest

from vindaesk.provenance import memory, sources

SOURCE = "crates/low/src/lib.rt"


def listing(top: Path) -> sources.Listing:
    """The sources below a folder."""
    return sources.Listing(str(top))


@pytest.fixture
def top(tmp_path: Path, monkeypatch: pytest.MonkeyPatch) -> Path:
    """A folder of sources whose checksum is kept."""
    for path in (SOURCE, "crates/low/proofs/a.rt", "crates.txt"):
        (tmp_path / path).parent.mkdir(parents=True, exist_ok=True)
        (tmp_path / path).write_text("a\n")
    monkeypatch.setattr(sources, "TOP", str(tmp_path))
    monkeypatch.setattr(memory, "FOLDER", str(tmp_path / "out"))
    monkeypatch.setattr(memory, "SETTLED", 0)
    listing(tmp_path).checksum()
    return tmp_path


def edit(top: Path) -> None:
    """Writes another byte; the size and the time stay."""
    before = os.stat(top / SOURCE)
    (top / SOURCE).write_text("b\n")
    os.utime(top / SOURCE, ns=(before.st_atime_ns, before.st_mtime_ns))


def add(top: Path) -> None:
    """Adds a file; the time of its folder stays."""
    before = os.stat(top / "crates/low/src")
    (top / "crates/low/src/new.rt").write_text("")
    os.utime(top / "crates/low/src", ns=(before.st_atime_ns, before.st_mtime_ns))


CHANGES: Dict[str, Callable[[Path], object]] = {
    "edit": edit, "add": add,
    "beside": lambda top: (top / "crates/low/new.rt").write_text(""),
    "crate": lambda top: (top / "crates/new.rt").write_text(""),
    "remove": lambda top: (top / "crates/low/proofs/a.rt").unlink(),
    "rename": lambda top: (top / SOURCE).rename(top / "crates/low/src/other.rt"),
    "handles": lambda top: (top / "HANDLES").write_text(""),
    "list": lambda top: (top / "crates.txt").unlink(),
}


@pytest.mark.parametrize("change", CHANGES.values(), ids=list(CHANGES))
def test_each_change_is_seen(top: Path, change: Callable[[Path], object]) -> None:
    kept = listing(top)
    assert kept.known and kept.known == kept.read()
    change(top)
    found = listing(top)
    assert found.known is None and found.checksum() == found.read() != kept.known


def test_what_a_build_makes_is_no_source(top: Path) -> None:
    (top / "crates/low/out").mkdir()
    (top / "crates/low/out/low").write_text("")
    assert listing(top).known


@pytest.mark.parametrize("kept", [b"", b"x", b"x\n", b"x\ni\0\0\0\0", b"x\n[\2\0\0\0NN", b"x\n[\1\0\0\0"])
def test_what_is_kept_in_another_form_is_passed_over(top: Path, kept: bytes) -> None:
    (top / "out/sources").write_bytes(kept)
    found = listing(top)
    assert found.known is None and found.checksum() == found.read()

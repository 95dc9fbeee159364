"""Lines of scripts as docs/SCRIPT.md has them: up to a line feed, words parted by spaces, a line with # first passed
over, one of more than 1024 bytes refused."""
import pathlib

from vindaesk.common.failures import Failure
from vindaesk.scripts import script


def test_lines() -> None:
    wanted = {
        b"": [], b"a": [b"a"], b"a\n": [b"a"], b"a\nb": [b"a", b"b"], b"\n": [b""], b"a\n\nb\n": [b"a", b"", b"b"],
        b"a\r\nb\r": [b"a\r", b"b\r\r"],
    }
    for text, lines in wanted.items():
        assert (text, script.lines_in(text)) == (text, lines)


def test_words() -> None:
    wanted = {
        b"add v1  View 1 2": [b"add", b"v1", b"View", b"1", b"2"], b" frame ": [b"frame"], b"# frame": [], b"": [], b"  ": [],
        b"frame\r": [b"frame"], b"frame\r\r": [b"frame\r"], b"a\tb": [b"a\tb"], b" # a": [b"#", b"a"],
        b"a" * 1024: [b"a" * 1024], b"a" * 1025: [],
    }
    for line, words in wanted.items():
        assert (line, script.words_of(line)) == (line, words)


def test_windows() -> None:
    wanted = {
        b"window 1 4096": (1, 4096), b"window 0 5": None, b"window 5 4097": None, b"window 05 5": None, b"window 5": None,
        b"window 5 5 5": None, b"#window 5 5": None, b" window  7 8 ": (7, 8), b"window 7 8\r": (7, 8), b"window +7 8": None,
        b"Window 7 8": None, b"window -0 8": None,
    }
    for line, size in wanted.items():
        assert (line, script.window_of(line)) == (line, size)
    assert script.last_window([b"window 1 2", b"frame", b"window 3 4", b"window 0 0"]) == (3, 4)
    assert script.last_window([b"frame"]) is None


def test_frames() -> None:
    assert [script.is_frame(it) for it in (b"frame", b" frame\r", b"frame 1", b"#frame", b"frames", b"")] == [
        True, True, False, False, False, False]


def test_files(tmp_path: pathlib.Path) -> None:
    path = tmp_path / "a.script"
    path.write_bytes(b"window 1 1\nframe\n")
    found = script.read(str(path))
    assert (found.lines, found.folder) == ([b"window 1 1", b"frame"], str(tmp_path))


def test_what_is_too_long() -> None:
    """A script has at most 2 ** 24 bytes, with what tools add."""
    assert len(script.joined([b"a" * ((1 << 24) - 1)])) == 1 << 24
    try:
        script.joined([b"a" * (1 << 24)])
    except Failure as failure:
        assert "more than 16777216 bytes" in str(failure)
    else:
        raise AssertionError("it is taken")

"""Sessions of the library in this process: what they return, and by which thread they are used."""
import threading
from typing import Iterator, List

import pytest

import native as checked
from vindaesk.program import native


@pytest.fixture
def session(monkeypatch: pytest.MonkeyPatch) -> Iterator[native.Session]:
    """A session with a file, whose first buffer is small."""
    monkeypatch.setattr(native, "ROOM", 64)
    with native.Library(checked.shared()).session({b"a.xml": b"no layout"}) as opened:
        yield opened


def test_a_line_has_its_text_and_its_status(session: native.Session) -> None:
    assert session.line(b"window 9 9") == (b"", 0)
    assert session.line(b"add root View 4 3") == (b"v1\n", 0)
    assert session.line(b"add v1 View 4") == (b"line 3: refused 31 Syntax\n", 1)
    assert session.line(b"inflate a.xml")[1] == 1
    assert session.line(b"frame\nframe") == (b"", 2)


def test_a_text_of_any_length_is_whole(session: native.Session) -> None:
    for line in (b"window 90 90", b"add root FrameLayout match match", *[b"add v1 View 1 2"] * 99, b"frame"):
        session.line(line)
    wanted = b"v1 0 0 90 90\n" + b"".join(b"v%d 0 0 1 2\n" % number for number in range(2, 101))
    assert [session.line(b"bounds"), session.line(b"bounds v100")] == [(wanted, 0), (b"v100 0 0 1 2\n", 0)]


def test_a_closed_session_takes_no_line(session: native.Session) -> None:
    assert session.is_open
    session.close()
    session.close()
    assert not session.is_open and session.line(b"frame") == (b"", 10)


def test_no_other_thread_uses_it(session: native.Session) -> None:
    said: List[str] = []

    def use() -> None:
        for call in (lambda: session.line(b"frame"), session.close):
            with pytest.raises(RuntimeError, match="the thread that opened it") as raised:
                call()
            said.append(str(raised.value))

    other = threading.Thread(target=use)
    other.start()
    other.join()
    assert len(said) == 2 and session.is_open

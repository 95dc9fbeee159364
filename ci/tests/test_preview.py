"""What a preview keeps as files change, and what it shows first."""
import os
import pathlib
import shutil
import threading
import time
from typing import Any, Iterator, List, Tuple

import pytest
from vindaesk.preview import drawing, preview, subjects
from vindaesk.preview.preview import Preview
from vindaesk.preview.subjects import AppSubject
from vindaesk.resources.devices import device

TOP = os.path.dirname(os.path.dirname(os.path.dirname(os.path.realpath(__file__))))
SCRIPT = "window 20 20\nadd root View match match\nid v1 @7f080001\nframe\n"
WAIT = 30
# what has a later time has changed in a test
RECENT = time.time_ns() - 3_600_000_000_000


def age(top: pathlib.Path, number: int) -> None:
    """Has what has changed just now a time that is long ago, another one for each number."""
    for path in [top, *top.rglob("*")]:
        if path.stat().st_mtime_ns >= RECENT:
            os.utime(path, (number, number))


@pytest.fixture
def home(tmp_path: pathlib.Path) -> Iterator[Tuple[AppSubject, pathlib.Path]]:
    """A layout of the source of an app, with the folder of its resources."""
    shutil.copytree(os.path.join(TOP, "examples", "trips", "res"), tmp_path / "res")
    age(tmp_path, 1)
    found = subjects.subject([str(tmp_path)], ["home"])
    assert isinstance(found, AppSubject)
    yield found, tmp_path / "res"
    found.close()


def bounds(subject: AppSubject) -> List[Any]:
    """Where the views of the first configuration are."""
    layout = subject.layout(subject.configurations[0])
    drawn = drawing.drawn(layout.script)
    drawing.follow(layout.script, drawn)
    return [it.window for it in drawn.views]


def test_a_changed_layout_is_read_and_all_else_kept(home: Tuple[AppSubject, pathlib.Path]) -> None:
    subject, res = home
    before, opened, path = bounds(subject), subject.opened, res / "layout" / "home.xml"
    path.write_text(path.read_text().replace("match_parent", "200px", 1))
    subject.load()
    assert subject.opened is opened
    assert bounds(subject) != before


def test_an_app_is_opened_again_where_its_resources_change(home: Tuple[AppSubject, pathlib.Path]) -> None:
    subject, res = home
    layout = res / "layout" / "home.xml"

    def value() -> None:
        path = next(it for it in sorted((res / "values").iterdir()) if "<dimen" in it.read_text())
        path.write_text(path.read_text().replace("</dimen>", "</dimen> "))

    def new_id() -> None:
        layout.write_text(layout.read_text().replace("@+id/", "@+id/other_", 1))

    def new_file() -> None:
        shutil.copy(layout, res / "layout" / "second.xml")

    def gone() -> None:
        (res / "layout" / "second.xml").unlink()

    changes = [value, new_id, new_file, gone]
    for change in changes:
        opened = subject.opened
        change()
        age(res.parent, 2 + changes.index(change))
        subject.load()
        assert subject.opened is not opened, change.__name__
    assert "second" not in subject.opened.layouts(device()) if subject.opened else False


def test_the_picture_comes_before_the_views(tmp_path: pathlib.Path, monkeypatch: Any) -> None:
    """Whoever asks for the views waits for them, and who waits for a picture does not; nothing else is drawn until a
    page has the picture."""
    (tmp_path / "a.script").write_text(SCRIPT)
    begun, held, follow = threading.Event(), threading.Event(), drawing.follow

    def slow(*words: Any) -> None:
        begun.set()
        assert held.wait(WAIT)
        follow(*words)

    monkeypatch.setattr(drawing, "follow", slow)
    monkeypatch.setattr(preview, "SENDING", WAIT)
    shown = Preview(subjects.subject([str(tmp_path / "a.script")], []))
    shown.note_page(1)
    shown.start()
    try:
        assert shown.wait(0, WAIT)
        rows: Any = shown.summary()["configurations"]
        assert [it["name"] for it in rows] == ["as-it-is"] and rows[0]["picture"]
        states: List[Any] = []
        asking = threading.Thread(target=lambda: states.append(shown.state("as-it-is")), daemon=True)
        asking.start()
        asking.join(0.2)
        assert not states and not begun.is_set()
        shown.note_sent(rows[0]["picture"])
        held.set()
        asking.join(WAIT)
        assert [it["number"] for it in states[0]["views"]] == [1] and states[0]["views"][0]["values"]
        assert shown.wait(1, WAIT)
    finally:
        held.set()
        shown.end()


def test_lint_ends_once_a_file_changes(tmp_path: pathlib.Path, monkeypatch: Any) -> None:
    """Its process ends with what it has started, and a broken one is said."""
    from vindaesk.common.failures import Failure
    from vindaesk.preview import findings

    (tmp_path / "a.script").write_text(SCRIPT)
    subject = subjects.subject([str(tmp_path / "a.script")], [])
    layout = subject.layout(subject.configurations[0])
    assert findings.findings_of(layout, bool) == []
    monkeypatch.setattr(findings, "looked_at", lambda _: threading.Event().wait(WAIT))
    with pytest.raises(findings.GivenUp):
        findings.findings_of(layout, lambda: True)
    monkeypatch.setattr(findings, "looked_at", lambda _: os._exit(3))
    with pytest.raises(Failure, match="the process of lint has ended"):
        findings.findings_of(layout, bool)
    with pytest.raises(ChildProcessError):
        os.waitpid(-1, os.WNOHANG)
    subject.close()

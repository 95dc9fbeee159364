"""Apps that are made to do harm: each is one sentence, in seconds."""
import os
import time
from pathlib import Path
from typing import Dict, Iterator

import pytest
from made_apps_source import SPACES, mapped, opened, put, request, screen
from vindaesk.apps import app
from vindaesk.common.failures import Failure

FULL = 'android:layout_width="match_parent" android:layout_height="match_parent"'


@pytest.fixture(autouse=True)
def quickly() -> Iterator[None]:
    started = time.process_time()
    yield
    assert time.process_time() - started < 20


def test_includes_that_grow(tmp_path: Path) -> None:
    layouts = {"main": "<FrameLayout %s>%s</FrameLayout>" % (FULL, "<include layout='@layout/a0' />" * 10)}
    for number in range(8):
        inner = "<include layout='@layout/a%d' />" % (number + 1) * 10 if number < 7 else "<View %s />" % FULL
        layouts["a%d" % number] = "<FrameLayout %s>%s</FrameLayout>" % (FULL, inner)
    with opened(tmp_path, layouts) as it:
        assert "more than 4096 views" in it.screen("main", request()).why


def test_merges_that_grow(tmp_path: Path) -> None:
    layouts = {"main": "<FrameLayout %s>%s</FrameLayout>" % (FULL, "<include layout='@layout/a0' />" * 30)}
    for number in range(8):
        layouts["a%d" % number] = "<merge>%s</merge>" % ("<include layout='@layout/a%d' />" % (number + 1) * 30)
    layouts["a8"] = "<merge />"
    with opened(tmp_path, layouts) as it:
        assert "more than 16384 elements" in it.screen("main", request()).why


def test_views_that_are_deep(tmp_path: Path) -> None:
    text = "<FrameLayout %s>" % FULL * 60 + "</FrameLayout>" * 60
    assert "more than 32 deep" in screen(tmp_path, text).why
    text = "<FrameLayout %s>" % FULL * 99 + "</FrameLayout>" * 99
    assert "more than 64 deep" in screen(tmp_path, text).why
    text = "<FrameLayout %s>" % FULL * 200 + "</FrameLayout>" * 200
    assert "more than 100 deep" in screen(tmp_path, text).why


def test_styles_in_a_circle(tmp_path: Path) -> None:
    values = "<style name='A' parent='B' /><style name='B' parent='A' />"
    _, records = mapped(tmp_path, "<View style='@style/A' %s />" % FULL, values)
    assert "circle" in records[0].notes[0].reason


def test_references_in_a_circle(tmp_path: Path) -> None:
    values = "<dimen name='a'>@dimen/b</dimen><dimen name='b'>@dimen/a</dimen>"
    _, records = mapped(tmp_path, "<View %s android:minWidth='@dimen/a' />" % FULL, values)
    assert records[0].notes[0].attribute == "android:minWidth"


def test_drawables_in_a_circle(tmp_path: Path) -> None:
    loop = "<layer-list %s><item android:drawable='@drawable/loop' /></layer-list>" % SPACES
    _, records = mapped(tmp_path, "<View %s android:background='@drawable/loop' />" % FULL, res__drawable__loop=loop)
    assert "circle" in records[0].notes[0].reason


def test_drawables_that_grow(tmp_path: Path) -> None:
    files: Dict[str, str] = {}
    for number in range(14):
        items = "<item android:drawable='@drawable/d%d' />" % (number + 1) * 20
        files["res__drawable__d%d" % number] = "<layer-list %s>%s</layer-list>" % (SPACES, items)
    _, records = mapped(tmp_path, "<View %s android:background='@drawable/d0' />" % FULL, **files)
    assert records[0].notes


def test_values_that_are_long(tmp_path: Path) -> None:
    for value in ("9" * 100000, "@{" + ", default=" * 10000 + "}", "1" + "e" * 70000, "|" * 70000, "a,b:" * 20000):
        text = "<View %s android:minWidth='%s' app:layout_constraintDimensionRatio='%s' />" % (FULL, value, value)
        made = screen(tmp_path, text)
        assert made.why or made.records


def test_a_document_type_is_refused(tmp_path: Path) -> None:
    put(tmp_path, "res/values/values.xml", "<!DOCTYPE a [<!ENTITY b 'c'>]><resources>&b;</resources>")
    put(tmp_path, "res/layout/main.xml", "<View />")
    with pytest.raises(Failure, match="has no document type"):
        with app.opened([str(tmp_path)]):
            pass


def test_a_name_that_leads_out_is_not_there(tmp_path: Path) -> None:
    put(tmp_path, "secret.xml", "<View />")
    inner = tmp_path / "app"
    put(inner, "res/layout/main.xml", "<View />")
    os.symlink(str(tmp_path / "secret.xml"), str(inner / "res" / "layout" / "out.xml"))
    with app.opened([str(inner)]) as it:
        assert "is not in the app" in it.screen("out", request()).why


def test_chains_of_all_children(tmp_path: Path) -> None:
    # none of it needs the program, which is not asked where the layout is refused before
    child = "<View android:id='@+id/v%d' %s app:layout_constraintStart_toEndOf='@id/v%d' app:layout_constraintEnd_toStartOf='@id/v%d' />"
    children = "".join(child % (it, FULL, it - 1, it + 1) for it in range(1, 5000))
    text = "<androidx.constraintlayout.widget.ConstraintLayout %s>%s</androidx.constraintlayout.widget.ConstraintLayout>"
    assert "more than 4096 views" in screen(tmp_path, text % (FULL, children)).why

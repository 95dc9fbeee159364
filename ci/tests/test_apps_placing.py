"""Groups that are placed by what the program measures. What is expected follows from the sources of Android 6.0.1's
classes and of ConstraintLayout, named in each test."""
import tempfile
from pathlib import Path
from typing import Dict, List, Tuple

from made_apps_source import screen
from vindaesk.apps.app import Screen
from vindaesk.program import process

FULL = 'android:layout_width="match_parent" android:layout_height="match_parent"'
SIZE = 'android:layout_width="wrap_content" android:layout_height="wrap_content"'
CONSTRAINT = "androidx.constraintlayout.widget.ConstraintLayout"
PARENT = 'app:layout_constraintStart_toStartOf="parent" app:layout_constraintTop_toTopOf="parent"'


def bounds(made: Screen) -> Dict[str, Tuple[int, ...]]:
    """The bounds of the views that have ids, by their names."""
    assert not made.why, made.why
    with tempfile.TemporaryDirectory() as folder:
        (Path(folder) / (made.name + ".xml")).write_bytes(made.compiled)
        lines = b"".join(b"bounds @%x\n" % number for number in made.ids)
        written, _ = process.ran(["run"], made.script + lines, folder)
    rows = [it.split() for it in written.decode().split("\n") if it.startswith("v")]
    return {name.rpartition("/")[2]: tuple(map(int, row[1:5])) for name, row in zip(made.ids.values(), rows)}


def placed(folder: Path, text: str) -> Tuple[Dict[str, Tuple[int, ...]], List[str]]:
    """The bounds of a layout on a screen of 360 by 640, and why views are not exact."""
    made = screen(folder, text)
    return bounds(made), [note.reason for it in made.records for note in it.notes if note.effect.value == "bounds"]


def test_the_content_of_a_horizontal_scroll_view_is_as_wide_as_it_is(tmp_path: Path) -> None:
    # HorizontalScrollView.measureChildWithMargins: the width of the child is UNSPECIFIED
    text = ('<HorizontalScrollView %s><LinearLayout %s android:id="@+id/line"><View android:id="@+id/one" '
            'android:layout_width="300dp" android:layout_height="9dp" /><TextView %s android:id="@+id/two" '
            'android:text="0123456789abcdefghij" /></LinearLayout></HorizontalScrollView>') % (FULL, SIZE, SIZE)
    found, why = placed(tmp_path, text)
    assert found["line"] == (0, 0, 420, 9) and found["two"] == (300, 0, 420, 8) and not why


def test_a_content_fills_a_wider_horizontal_scroll_view(tmp_path: Path) -> None:
    # HorizontalScrollView.onMeasure: with fillViewport a child that is narrower gets the width of the view
    text = ('<HorizontalScrollView %s android:paddingLeft="10dp" android:fillViewport="true"><FrameLayout %s '
            'android:id="@+id/a" android:minWidth="7dp" /></HorizontalScrollView>') % (FULL, SIZE)
    found, why = placed(tmp_path, text)
    assert found["a"] == (10, 0, 360, 0) and not why


def test_a_content_that_takes_all_room_is_reported(tmp_path: Path) -> None:
    text = '<HorizontalScrollView %s><View %s android:id="@+id/a" /></HorizontalScrollView>' % (FULL, SIZE)
    found, why = placed(tmp_path, text)
    assert found["a"][2] == 360 and len(why) == 2


def test_texts_of_a_line_have_one_baseline(tmp_path: Path) -> None:
    # LinearLayout.layoutHorizontal: childTop += maxAscent - childBaseline, and the line is as high as the largest
    # ascent and the largest descent together
    text = ('<LinearLayout %s android:id="@+id/line"><TextView %s android:id="@+id/one" android:text="a" '
            'android:paddingTop="10dp" android:paddingBottom="1dp" /><TextView %s android:id="@+id/two" android:text="b" '
            'android:layout_margin="3dp" /><View android:id="@+id/three" android:layout_width="5dp" '
            'android:layout_height="4dp" /></LinearLayout>') % (SIZE, SIZE, SIZE)
    found, why = placed(tmp_path, text)
    assert found["one"] == (0, 0, 6, 19) and found["two"] == (9, 13, 15, 21) and found["three"] == (18, 0, 23, 4)
    assert found["line"] == (0, 0, 23, 24) and not why


def test_texts_of_a_line_without_a_baseline_stay_at_the_top(tmp_path: Path) -> None:
    text = ('<LinearLayout %s android:baselineAligned="false"><TextView %s android:text="a" android:paddingTop="10dp" />'
            '<TextView %s android:id="@+id/two" android:text="b" /></LinearLayout>') % (SIZE, SIZE, SIZE)
    assert placed(tmp_path, text)[0]["two"] == (6, 0, 12, 8)


def test_a_common_baseline_in_a_constraint_layout(tmp_path: Path) -> None:
    # ConstraintWidget.applyConstraints: the baseline of one view is that of the other one
    text = ('<%s %s><TextView %s android:id="@+id/one" android:text="a" android:paddingTop="10dp" %s '
            'android:layout_marginTop="5dp" /><TextView %s android:id="@+id/two" android:text="b" android:paddingTop="2dp" '
            'app:layout_constraintStart_toEndOf="@id/one" app:layout_constraintBaseline_toBaselineOf="@id/one" /></%s>') % (
                CONSTRAINT, FULL, SIZE, PARENT, SIZE, CONSTRAINT)
    found, why = placed(tmp_path, text)
    assert found["one"] == (0, 5, 6, 23) and found["two"] == (6, 13, 12, 23) and not why


def test_a_circle_in_a_constraint_layout(tmp_path: Path) -> None:
    # layout_constraintCircleAngle: 0 is at the top, and the angle runs to the right
    for angle, left, top in ((0, 45, 5), (90, 85, 45), (180, 45, 85)):
        text = ('<%s %s><View android:id="@+id/one" android:layout_width="20dp" android:layout_height="20dp" %s '
                'android:layout_marginStart="40dp" android:layout_marginTop="40dp" /><View android:id="@+id/two" '
                'android:layout_width="10dp" android:layout_height="10dp" app:layout_constraintCircle="@id/one" '
                'app:layout_constraintCircleAngle="%d" app:layout_constraintCircleRadius="40dp" /></%s>') % (
                    CONSTRAINT, FULL, PARENT, angle, CONSTRAINT)
        found, why = placed(tmp_path, text)
        assert found["two"] == (left, top, left + 10, top + 10) and not why


def test_what_a_flow_places_is_reported(tmp_path: Path) -> None:
    text = ('<%s %s><androidx.constraintlayout.helper.widget.Flow %s app:constraint_referenced_ids="one" %s />'
            '<View android:id="@+id/one" android:layout_width="9dp" android:layout_height="9dp" /></%s>') % (
                CONSTRAINT, FULL, SIZE, PARENT, CONSTRAINT)
    assert "a Flow places it by rules of its own: not placed here" in placed(tmp_path, text)[1]

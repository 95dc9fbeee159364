"""How often the preview looks at its files."""
import threading
import time
from typing import Any, Dict, List

from vindaesk.preview import watcher


def test_waits_do_not_count(monkeypatch: Any) -> None:
    """Looks that wait for the machine, and take next to none of its time, are followed by a short pause."""
    ended, looks = threading.Event(), []

    def slow(paths: List[str]) -> Dict[str, watcher.Stamp]:
        looks.append(time.monotonic())
        time.sleep(0.05)
        if len(looks) == 5:
            ended.set()
        return {}

    monkeypatch.setattr(watcher, "stamps", slow)
    watcher.follow(lambda: [], lambda: None, ended)
    # by the time that they took, waits included, each pause would be a second
    assert looks[-1] - looks[0] < 3


def test_a_file_that_is_written_is_read_once(monkeypatch: Any) -> None:
    """What is written in pieces counts as changed once it stays; what never stays counts too."""
    for states, wanted in (([0, 1, 2, 2, 2], [4]), ([0, 0, 1, 1, 2, 2], [4, 6]), (list(range(40)), [27])):
        ended, left, calls = threading.Event(), list(states), []

        def next_of(paths: List[str]) -> Dict[str, watcher.Stamp]:
            found = left.pop(0)
            if not left:
                ended.set()
            return {"a": (found, 0, 0)}

        monkeypatch.setattr(watcher, "PAUSE", 0)
        monkeypatch.setattr(watcher, "WRITING", 0)
        monkeypatch.setattr(watcher, "stamps", next_of)
        watcher.follow(lambda: ["a"], lambda: calls.append(len(states) - len(left)), ended)
        assert calls == wanted


def test_a_file_that_may_change_again_counts_as_changed() -> None:
    """The time of a file may be the same after another change, if that came soon."""
    second = 1_000_000_000
    found = watcher.older({"a": (5 * second, 1, 1), "b": (9 * second, 1, 1), "c": None}, 10 * second)
    assert found == {"a": (5 * second, 1, 1), "b": watcher.NEVER, "c": watcher.NEVER}

"""What tools say on standard error."""
import io
import sys

import pytest

from vindaesk.common import messages


def test_a_sentence_is_there_at_once(monkeypatch: pytest.MonkeyPatch) -> None:
    # as Python 3.8 opens it where it is no terminal
    below = io.BytesIO()
    monkeypatch.setattr(sys, "stderr", io.TextIOWrapper(below, "utf-8", line_buffering=False))
    monkeypatch.setattr(sys, "argv", ["tools/tree"])
    messages.say("a word is \x1b missing")
    assert below.getvalue() == b"tree: a word is \\x1b missing\n"

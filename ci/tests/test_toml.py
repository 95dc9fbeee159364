"""The reader of TOML: what it takes means the same to Python's own reader, where there is one."""
import random
import sys
from typing import Any, Dict

import pytest

from vindaesk.common import toml
from vindaesk.common.failures import Failure

PIECES = [
    "a", "b-1", '"q x"', "'l'", " ", "\t", "=", "=", "=", "[", "]", "[a]", "[b]", "1", "-0", "+5", "1_0", "01", "1__0", "0x1",
    "1.5", "1979-05-27", "true", "false", "truex", '"s"', '"\\n"', '"\\q"', '"\\u00e9"', '"\\ud800"', "'l\\'", '"""', "'''", ",",
    "#c", "\n", "\n", "\n", "\r\n", "\r", ".", "é", "\0", "\ufeff", "{", "}", '"\t"', "9223372036854775807", "9223372036854775808",
]
VALUES = ["1", '"x"', "true", "[1, 2]", '[\n1,\n# c\n"a",\n]', "[[1],[2,]]", "'x'"]


def plain(text: str) -> Dict[str, Any]:
    """What a text holds, as Python's own reader returns it."""
    first, *others = toml.read(text.encode("utf-8", "surrogatepass"), "f")
    found: Dict[str, Any] = {key: entry.value for key, entry in first.entries.items()}
    found.update({it.name: {key: entry.value for key, entry in it.entries.items()} for it in others})
    return found


def made(draw: random.Random) -> str:
    """A text that is nearly always wrong, or one that is nearly always right."""
    if draw.random() < 0.5:
        return "".join(draw.choice(PIECES) for _ in range(draw.randint(1, 14)))
    lines = []
    for _ in range(draw.randint(1, 5)):
        is_table = draw.random() < 0.2
        value = draw.choice(VALUES + PIECES)
        lines.append("[%s]\n" % draw.choice("abc") if is_table else "%s = %s # é\n" % (draw.choice("defg"), value))
    return "".join(lines)


@pytest.mark.skipif(sys.version_info < (3, 11), reason="this Python has no reader of TOML")
def test_means_the_same_to_tomllib() -> None:
    import tomllib

    draw, both = random.Random(57), 0
    for _ in range(20000):
        text = made(draw)
        try:
            found = plain(text)
        except Failure:
            continue
        assert repr(found) == repr(tomllib.loads(text)), text
        both += 1
    assert both > 1000


@pytest.mark.parametrize("text, why", [
    ("a = 1.5", "f:1:5: a string in quotation marks, a whole number, true, false or an array is expected"),
    ("a = 1\na = 2", "f:2:1: 'a' is there already"),
    ("a = 1\n[a]", "f:2:1: 'a' is there already"),
    ("[a.b]", "f:1:3: names joined by dots are not read here"),
    ("[[a]]", "f:1:2: an array of tables is not read here"),
    ('a = """x"""', "f:1:5: a string of several lines is not read here"),
    ("a = 'x", "f:1:5: the string does not end in this line"),
    ('a = "\\q"', "f:1:5: the string has an unknown escape: \\q"),
    ("a = [1 2]", "f:1:8: ',' is expected"),
    ("a = 9223372036854775808", "f:1:24: the number is too large"),
    ("a = 1 b", "f:1:7: nothing more is expected in this line"),
    ("a = " + "[" * 20, "f:1:21: arrays are more than 16 deep"),
    ("a = 1\x00", "f:1:6: a control character is not allowed here"),
])
def test_refuses(text: str, why: str) -> None:
    with pytest.raises(Failure) as failure:
        plain(text)
    assert str(failure.value) == why


def test_reads() -> None:
    text = "# c\na = 1\nb = [[1, 'x'], [true]]\n\n['t t']\nc = \"\\u00e9\"\n"
    assert plain(text) == {"a": 1, "b": [[1, "x"], [True]], "t t": {"c": "é"}}
    assert [it.line for it in toml.read(text.encode(), "f")] == [0, 5]

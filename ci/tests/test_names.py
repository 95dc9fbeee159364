"""Names of ids in lines, and in what is kept of answers."""
import struct
from typing import Any

import pytest

from vindaesk.scripts import names
from vindaesk.scripts.resource_names import Names
from vindaesk.scripts.script import Line, Script
from vindaesk.testing import answers

LIST = b"app:id/send = 0x7f080002\nlib:id/send = 0x7e010001\napp:color/ink = 0x7f050000\nid/own = 0x00000007\n"
IDS = names.Ids(Names(LIST, "ids.txt"), "ids.txt")


@pytest.mark.parametrize("line, wanted", [
    (b"bounds @id/send", b"bounds @7f080002"),
    (b"  bounds   @app:id/send\r", b"  bounds   @7f080002\r"),
    (b"id v1 @lib:id/send", b"id v1 @7e010001"),
    (b"rule @id/send below @android:id/text1", b"rule @7f080002 below @1020014"),
    (b"res @color/ink color #ff000000", b"res @7f050000 color #ff000000"),
    (b"hook @id/own bg @id/send #ff0000ff ; size @id/own 1 1", b"hook @7 bg @7f080002 #ff0000ff ; size @7 1 1"),
    # names within texts and comments stay
    (b"text @id/send @id/send", b"text @7f080002 @id/send"),
    (b"res @color/ink text @id/send", b"res @7f050000 text @id/send"),
    (b"in 3 text @id/send x @id/own", b"in 3 text @7f080002 x @id/own"),
    (b"# @id/send", b"# @id/send"),
    (b"bounds v1", b"bounds v1"),
])
def test_expands(line: bytes, wanted: bytes) -> None:
    found = IDS.expanded(line)
    assert (found.text, found.unknown) == (wanted, [] if found.shifts else ())


@pytest.mark.parametrize("line, column, why", [
    (b"bounds @id/snd", 8, "@id/snd is not in ids.txt; did you mean 'send'?"),
    ("text é".encode() + b"@id/x", 0, ""),
    (b"bounds @ids/send", 8, "@ids/send is not in ids.txt; did you mean 'id'?"),
    (b"bounds @+id/new", 8, "a script makes no ids: @id/new, with a line in ids.txt"),
    (b"bounds @android:id/txt1", 8, "Android has no public id @android:id/txt1; did you mean 'text1'?"),
])
def test_says_what_is_unknown(line: bytes, column: int, why: str) -> None:
    found = IDS.expanded(line)
    assert [tuple(it) for it in found.unknown] == ([(column, why)] if why else [])


def test_knows_the_columns_of_what_was_written() -> None:
    found = IDS.expanded(b"rule @id/send belw @id/own")
    assert found.text == b"rule @7f080002 belw @7"
    # 'belw', and what follows the second name
    assert [found.written_column(it) for it in (6, 16, 21, 23)] == [6, 15, 20, 27]


def test_names_ids_again() -> None:
    assert IDS.named(b"bounds @7F080002 @7e010001 @00000007 x@7 @99") == (
        b"bounds @id/send @lib:id/send @id/own x@7 @99")
    assert IDS.expanded(IDS.named(b"bounds @7e010001")).text == b"bounds @7e010001"


def state(*entries: Any) -> bytes:
    """The reply of a line `save`, by the form in docs/FORMATS.md."""
    rows = [struct.pack("<IB", number, kind) + (
        struct.pack("<I", what) if kind == 1 else struct.pack("<H", len(what)) + what) for number, kind, what in entries]
    return b"state " + (b"VS\2" + struct.pack("<H", len(rows)) + b"".join(rows)).hex().encode()


def test_keeps_states_by_names() -> None:
    made = Script([], ".", (), IDS)
    found = answers.of_run(state((7, 1, 30), (0x10, 2, b"ab"), (0x7F080002, 1, 5)) + b"\n", made)
    assert found == b"state @00000010 0202006162 @id/own 011e000000 @id/send 0105000000\n"
    for reply in (state(), state((0x10, 1, 1)), b"state 5653", b"state 565303000007000000011e000000", b"state zz"):
        assert answers.of_run(reply, made) == reply


def test_keeps_places_as_they_were_written() -> None:
    written = [Line(b"x", "in/a.script", 1), Line(b"y", "in/b.lines", 1), Line(b"z", "in/a.script", 3)]
    made = Script([it.text for it in written], "in", written, IDS)
    answer = b"line 1: refused 31 Syntax\nline 2: refused 31 Syntax\nline 3: refused 31 Syntax\nline 9: x"
    wanted = b"line 1: refused 31 Syntax\nb.lines line 1: refused 31 Syntax\nline 3: refused 31 Syntax\nline 9: x"
    assert answers.of_run(answer, made) == wanted


def test_keeps_names_in_dumps() -> None:
    text = b"attr s1 s2 - 01 7f080002\nattr s1 s2 - 10 7f080002\ns1 \"attr s1 s2 - 01 7f080002\"\n"
    assert answers.of_dump(text, IDS) == text.replace(b"01 7f080002", b"01 @id/send", 1)

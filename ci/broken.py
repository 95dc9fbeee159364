"""Layout files with a wrong number in a header, layouts that are nested too deeply, and layouts with elements that are
refused: the line `inflate` refuses them by the number and the place that docs/FORMATS.md has, and leaves all as it was.

Each number of four bytes in the header of a chunk of examples/a.xml is replaced by 0, and by the greatest number. Where
the file is refused, the bounds of the views, the picture and the number of the next view are those of before; where the
number does not matter, the view of the file is added. The digest of the picture is worked out here.
"""
import hashlib
import os
import struct
import tempfile
from functools import partial
from typing import Iterator, Tuple

from running import PROGRAM, TOP, Checks, difference, named, run
from vindaesk.layouts import compiler, source_reader
from vindaesk.scripts import resource_names

GREATEST = 0xFFFFFFFF
READ = ""
# where the chunks of a.xml begin: the document, its pool of strings, its map of resources, and its nodes
CHUNKS = (0, 8, 164, 180, 204, 300, 324)
NODES = CHUNKS[3:]
# in the pool's header: how many strings and styles there are, the flags, and where strings and styles begin
POOL = (
    (16, "6 BadRef at 196", "3 BadPool at 8"),
    (20, READ, "3 BadPool at 8"),
    (24, "4 BadString at 36", READ),
    (28, "4 BadString at 36", "3 BadPool at 8"),
    (32, READ, READ),
)
INFLATING = b"""window 8 8
add root FrameLayout match match
bg v1 #ff336699
frame
bounds
digest
inflate a.xml into v1
bounds
digest
add v1 View 1 1
frame
bounds
digest
"""
DIGEST = hashlib.sha256(bytes.fromhex("336699") * 64).hexdigest()
ROOT = "v1 0 0 8 8"
SIZES = ("android:layout_width", "android:layout_height")
FRAME = '<FrameLayout %s android:layout_width="match_parent" android:layout_height="match_parent">'
NAMESPACE = 'xmlns:android="http://schemas.android.com/apk/res/android"'
MAX_DEPTH = 32


def fields() -> Iterator[Tuple[int, str, str]]:
    """Of each number its place, and how a file is refused in which it is 0, and in which it is the greatest."""
    for at in CHUNKS:
        yield at + 4, "2 BadChunk at %d" % at, "2 BadChunk at %d" % at
    for at in NODES:
        # a line of the source, and the number of a comment
        yield at + 8, READ, READ
        yield at + 12, READ, READ
    yield from POOL


def answer(why: str) -> Tuple[bytes, int]:
    """What is written where the file is refused, and where it is read, and the status."""
    before = ["v1", "settled 0", ROOT, DIGEST]
    if why:
        after = ["line 7: refused " + why, ROOT, DIGEST, "v2", "settled 0", ROOT, "v2 0 0 1 1", DIGEST]
    else:
        after = ["inflated v2 v2 ignored 1", ROOT, "v2 none", DIGEST]
        after += ["v3", "settled 0", ROOT, "v2 0 0 8 16", "v3 0 0 1 1", DIGEST]
    return "\n".join([*before, *after, ""]).encode(), 1 if why else 0


def over(file: bytes, script: bytes) -> Tuple[bytes, int]:
    """What a script writes where this is the file a.xml, and the status."""
    with tempfile.TemporaryDirectory() as folder:
        with open(os.path.join(folder, "a.xml"), "wb") as made:
            made.write(file)
        return run([PROGRAM, "run"], script, folder)


def replaced(at: int, number: int, why: str) -> str:
    """Why a file with another number at this place fails, or nothing."""
    with open(os.path.join(TOP, "examples", "a.xml"), "rb") as file:
        whole = file.read()
    made = whole[:at] + struct.pack("<I", number) + whole[at + 4 :]
    return difference(*answer(why), *over(made, INFLATING))


def compiled(source: str) -> bytes:
    """The file of this source."""
    nodes, wrong = source_reader.read(source.encode(), "a.xml", resource_names.Names(b"", "ids"))
    assert not wrong, wrong
    return compiler.compiled(nodes)


def nested(count: int) -> bytes:
    """A file of `count` views, each of them around the next."""
    return compiled(FRAME % NAMESPACE + FRAME % "" * (count - 1) + "</FrameLayout>" * count)


def refuses_too_many() -> str:
    """The first view that is too deep is named, and none of the file is added."""
    script = b"window 8 8\ninflate a.xml\nbounds\nadd root View 1 1\nframe\nbounds\n"
    wanted = b"line 2: refused 20 Depth element %d\nline 3: refused 34 NoRoot\nv1\nsettled 0\nv1 0 0 1 1\n"
    return difference(wanted % (MAX_DEPTH + 1), 1, *over(nested(MAX_DEPTH + 1), script))


def adds_as_many_as_fit() -> str:
    script = b"window 8 8\ninflate a.xml\nadd v%d View 1 1\nframe\nbounds v%d\n" % (MAX_DEPTH, MAX_DEPTH)
    wanted = b"inflated v1 v%d ignored 0\nline 3: refused 20 Depth\nsettled 0\nv%d 0 0 8 8\n" % (MAX_DEPTH, MAX_DEPTH)
    return difference(wanted, 1, *over(nested(MAX_DEPTH), script))


def counts_the_views_around() -> str:
    wanted = answer("20 Depth element %d" % MAX_DEPTH)
    return difference(*wanted, *over(nested(MAX_DEPTH), INFLATING))


def reports_the_first_element_that_is_refused() -> str:
    """The second element refers to a resource, and the third is no view: which is refused depends on the resource."""
    inside = '<View %s="1px" %s="@7f050001"/><style %s="1px" %s="1px"/>' % (SIZES * 2)
    script = b"window 8 8\ninflate a.xml\nres @7f050001 dimen 1 px\ninflate a.xml\nbounds\n"
    wanted = b"line 2: refused 12 Unresolved element 2\nline 4: refused 23 UnknownClass element 3\n"
    wanted += b"line 5: refused 34 NoRoot\n"
    return difference(wanted, 1, *over(compiled(FRAME % NAMESPACE + inside + "</FrameLayout>"), script))


def reports_a_circle_by_its_elements() -> str:
    """The second element and the fourth are each to the right of the other: by ids, of which the last view counts."""
    tied = 'android:id="@7f08000%d" android:layout_toRightOf="@7f08000%d"'
    size = '%s="1px" %s="1px"' % SIZES
    inside = '<FrameLayout %s %s><View android:id="@7f080002" %s/></FrameLayout>' % (tied % (1, 2), size, size)
    inside += "<View %s %s/>" % (tied % (2, 1), size)
    group = '<RelativeLayout %s %s="match_parent" %s="match_parent">' % (NAMESPACE, *SIZES)
    wanted = b"line 2: refused 18 Cycle horizontal e2 e4\nline 3: refused 34 NoRoot\n"
    script = b"window 8 8\ninflate a.xml\nbounds\n"
    return difference(wanted, 1, *over(compiled(group + inside + "</RelativeLayout>"), script))


def checks() -> Checks:
    for at, of_zero, of_greatest in fields():
        yield "broken files: 0 at %d" % at, partial(replaced, at, 0, of_zero)
        yield "broken files: the greatest number at %d" % at, partial(replaced, at, GREATEST, of_greatest)
    for check in (refuses_too_many, adds_as_many_as_fit, counts_the_views_around):
        yield "broken files: nested views, " + check.__name__.replace("_", " "), check
    yield from named("broken files", (reports_the_first_element_that_is_refused, reports_a_circle_by_its_elements))

"""The program where each of its requests for memory is refused in turn, over a script with a line of each form.

A library that is loaded before that of C counts the requests of a run and refuses some (out_of_memory.c); the C
compiler `cc` has to be on PATH. Lines that begin with one of nine words may take memory. Where a request of such a line
and all later ones are refused, the status is 5, and what is written is the answer of the lines before. So it is where
that request alone is refused, unless the line makes do with less: then all is as if nothing was refused. Any other line
makes no request, nor does one that is passed over or fits no form. Where a request before the first line is refused,
nothing is written; nor is it under `dump`, `lookup` and `gen`, which begin to write when they need no more memory.

A sink in memory needs memory for what is written. The built program writes to none, so a test of `tool` over one is run
by `rt try`, unproved, with one request refused: if it is the sink's, the status is 4.
"""
import functools
import json
import os
import re
import shutil
import subprocess
import tempfile
from functools import partial
from typing import Iterable, Optional, Sequence, Tuple

from running import PROGRAM, SECONDS, TOP, Checks, difference
from vindaesk.scripts import grammar

Words = Sequence[str]

TAKING = ("inflate", "add", "window", "res", "text", "id", "rule", "save", "restore")
OUT_OF_MEMORY, WRITE_FAILED = 5, 4
# a test that first carries out a script of this answer, whose last lines make no request, so the last ones of that run
# are the sink's; a request in the middle of the run, and one after it
SINK_TEST, SINK_ANSWER = "bytes_are_moved_one_by_one", b"v1\nv2\nsettled 0\nv1 0 0 100 50\nv2 0 0 10 20\n"
WITHIN, AFTER = 16, 64
NEVER, ALWAYS = 0, 1 << 40
TABLE = os.path.join("app", "resources.arsc")
CALLS = (("dump", "a.xml"), ("lookup", "resources.arsc", "7f010000", "7f020000"), ("gen", "1"))
# a program that says which calls gave it memory
EACH_CALL = """#define _GNU_SOURCE
#include <malloc.h>
#include <stdio.h>
#include <stdlib.h>
#include <sys/mman.h>
#define TRY(name, call) if ((call) != NULL) puts(name)
int main(void) {
    void *volatile block = NULL;
    static char said[4096];
    setvbuf(stdout, said, _IOFBF, sizeof said);
    TRY("malloc", block = malloc(64));
    TRY("calloc", block = calloc(8, 8));
    TRY("realloc", block = realloc(NULL, 64));
    TRY("aligned_alloc", block = aligned_alloc(64, 64));
    TRY("memalign", block = memalign(64, 64));
    TRY("posix_memalign", posix_memalign((void **)&block, 64, 64) ? NULL : block);
    block = mmap(NULL, 4096, PROT_READ, MAP_PRIVATE | MAP_ANONYMOUS, -1, 0);
    TRY("mmap", block == MAP_FAILED ? NULL : block);
    block = mmap64(NULL, 4096, PROT_READ, MAP_PRIVATE | MAP_ANONYMOUS, -1, 0);
    TRY("mmap64", block == MAP_FAILED ? NULL : block);
    return 0;
}
"""
LINES = """dpi 160
res @7f010001 color #ff112233
res @7f010002 dimen 12 dp
res @7f010003 text one text
window 200 100
add root LinearLayout match match
orient v1 vertical
weightsum v1 3
weightsum v1 3 128
gravity v1 kids left
add v1 RelativeLayout match wrap
add v2 View 10 10
add v2 TextView wrap wrap
id v3 @1
id v4 @2
rule v3 right_of @2
rule v3 parent_top yes
text v4 a text
ink v4 #ff000000
bg v3 #ff336699
min v3 5 5
size v3 12 12
margins v3 1 1 1 1
padding v2 2 2 2 2
add v1 ScrollView match 30
id v5 @7f080001
weight v5 1
weight v5 1 64
gravity v5 self top
flag v5 fill yes
flag v2 clip no
flag v2 split no
direction v2 rtl
add v5 View match 90
inflate a.xml into v1
hook v3 size v6 match 91
frame
hook v7 size v3 13 13 ; bg v3 #ff445566
size v7 match 17
frame
frame
bounds
bounds v5
pixels 0 0 4 4
digest
scroll v5 30
answer v6 click
intercept v1 down move
intercept v1 none
disallow v5 yes
frame
down 0 5 30
move 0 5 20
up 0
down 1 5 30
save
visible v6 gone
cancel
restore
restore 56530101000100087f011e000000
visible v6 invisible
frame
bogus
# one

bounds v99
add v99 View 1 1
remove v1
inflate a.xml
frame
bounds""".split("\n")


@functools.lru_cache(None)
def place() -> "tempfile.TemporaryDirectory[str]":
    """A folder with the library, a layout file and a table of resources, as long as what is returned lasts."""
    folder = tempfile.TemporaryDirectory()
    source, library = (os.path.join(it, "out_of_memory") for it in (os.path.join(TOP, "ci"), folder.name))
    subprocess.run(["cc", "-shared", "-fPIC", "-o", library + ".so", source + ".c"], check=True)
    for name in ("a.xml", TABLE):
        shutil.copy(os.path.join(TOP, "examples", name), folder.name)
    return folder


def refusing(
    first: int, last: int, words: Words = ("run",), lines: Words = (), program: str = PROGRAM
) -> Tuple[bytes, int, int]:
    """What a call writes, its status, and the count of its requests, of which those with these numbers are refused."""
    folder = place().name
    variables = {"LD_PRELOAD": os.path.join(folder, "out_of_memory.so"), "FIRST": str(first), "LAST": str(last)}
    ended = subprocess.run(
        [program, *words], input="".join(line + "\n" for line in lines).encode(), stdout=subprocess.PIPE,
        stderr=subprocess.PIPE, cwd=folder, env={**os.environ, **variables}, timeout=SECONDS
    )
    # a run that a signal ends does not report its requests
    return ended.stdout, ended.returncode, int(ended.stderr or -1)


@functools.lru_cache(None)
def after(count: int) -> Tuple[bytes, int, int]:
    """What the first lines write, the status, and the count of requests, if none is refused."""
    return refusing(NEVER, NEVER, lines=LINES[:count])


def refused(numbers: Iterable[int], before: bytes, words: Words = ("run",), lines: Words = LINES) -> str:
    """Why a call is wrong in which one of some requests is refused, and this is what is written before; or nothing."""
    whole = refusing(NEVER, NEVER, words, lines)[:2]
    for number in numbers:
        why = difference(before, OUT_OF_MEMORY, *refusing(number, ALWAYS, words, lines)[:2])
        once = refusing(number, number, words, lines)[:2]
        if once != whole:
            why = why or difference(before, OUT_OF_MEMORY, *once)
        if why:
            return "request %d: %s" % (number, why)
    return ""


def call(words: Words) -> str:
    """Why a call is wrong in which any request is refused, or nothing."""
    written, status, requests = refusing(NEVER, NEVER, words)
    if status or not written:
        return "without a refused request the status is %d" % status
    return refused(range(1, requests + 1), b"", words, ())


def before_the_lines() -> str:
    """Why a run is wrong in which a request before the first line is refused, or nothing."""
    return refused(range(1, after(0)[2] + 1), b"")


def line(count: int) -> str:
    """Why the line after these is wrong, or nothing."""
    before, status, least = after(count)
    most = after(count + 1)[2]
    if status not in (0, 1):
        return "without a refused request the status is %d" % status
    if LINES[count].split(" ")[0] in TAKING:
        return refused(range(least + 1, most + 1), before)
    return "" if least == most else "it makes %d requests" % (most - least)


def each_form() -> str:
    """Why the script is short of a form of lines, or of a line that makes a request for one of the nine words; or
    nothing."""
    given = [it for it in LINES if it and not it.startswith("#")]
    for form in grammar.FORMS:
        if not any(grammar.tried(it, list(grammar.words_from(it)), form).is_whole for it in given):
            return "no line is '%s'" % form.words
    makes = {it.split(" ")[0] for count, it in enumerate(LINES) if after(count)[2] < after(count + 1)[2]}
    return "" if makes == set(TAKING) else "requests are made by %s" % sorted(makes)


def each_call() -> str:
    """Which calls of the library of C are not refused or not counted, or nothing."""
    path = os.path.join(place().name, "each_call")
    words = ["cc", "-O0", "-fno-builtin", "-x", "c", "-o", path, "-"]
    subprocess.run(words, input=EACH_CALL.encode(), check=True)
    names = EACH_CALL.count("TRY(\"")
    given, _, made = refusing(NEVER, NEVER, (), program=path)
    taken, _, requests = refusing(1, ALWAYS, (), program=path)
    if taken or len(given.split()) != names:
        return "refused, memory is given by: %s; else by: %s" % (taken.decode().split(), given.decode().split())
    return "" if requests == made == names else "of %d calls %d and %d are counted" % (names, made, requests)


def first_run(number: int) -> Optional[Tuple[int, bytes]]:
    """The status of the test's first script and what that has written, with this request refused; or nothing, if the
    request is not one of its run."""
    ended = subprocess.run(
        ["rt", "try", "--test", "--fail-alloc", str(number), "--", SINK_TEST], text=True, stdout=subprocess.PIPE,
        stderr=subprocess.STDOUT, cwd=os.path.join(TOP, "crates", "integration_tests")
    )
    found = re.search(r"left: \((\d+), (\[.*\])\)\n *right: \(0, (\[.*\])\)", ended.stdout)
    status, written, wanted = map(json.loads, found.groups()) if found else (None, [], [])
    return (status, bytes(written)) if bytes(wanted) == SINK_ANSWER else None


def sink() -> str:
    """Why the run whose last request is refused is wrong, or nothing; that request is found by halving."""
    low, high = WITHIN, AFTER
    last = first_run(low)
    while last and low + 1 < high:
        middle = (low + high) // 2
        run = first_run(middle)
        low, high, last = (middle, high, run) if run else (low, middle, last)
    if not last:
        return "request %d is none of the run" % low
    status, written = last
    if status != WRITE_FAILED:
        return "with request %d refused the status is %d" % (low, status)
    return "" if written and SINK_ANSWER.startswith(written) else "%r is no prefix" % written


def checks() -> Checks:
    yield "memory/requests/each call", each_call
    yield "memory/requests/each form", each_form
    yield "memory/requests/a sink in memory", sink
    yield "memory/requests/before the lines", before_the_lines
    for words in CALLS:
        yield "memory/requests/" + " ".join(words), partial(call, words)
    for count, it in enumerate(LINES):
        yield "memory/requests/line %d: %s" % (count + 1, it), partial(line, count)

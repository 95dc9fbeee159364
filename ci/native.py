"""The library of C: it shows no symbol but its own, and from C, from Python, from several threads and from Java it
gives the bytes and the status of the program, over each worked script and file of examples/, docs/ and ci/worked/, and
over the cases of stored.py. Its promises are kept over random scripts and files, also where each request for memory is
refused in turn, and the memory of a process does not grow with its calls (native_calls.c).

    python3 ci/native.py fuzz COUNT      COUNT calls under the address sanitizer, which take some minutes a million

The library is the one beside the program, or the one that the variable VINDAESK_LIBRARY names.
"""
import ctypes
import functools
import glob
import os
import re
import shutil
import struct
import subprocess
import sys
import tempfile
import threading
from functools import partial
from typing import Callable, Iterator, List, Sequence, Tuple

sys.dont_write_bytecode = True

import pages
import stored
from running import PROGRAM, TOP, Checks, Skipped, difference, need, run
from vindaesk.building import library
from vindaesk.common import files
from vindaesk.installing import contents
from vindaesk.program import calls as forms, in_process, native
from vindaesk.provenance import dist

CALLS, WRAPPED = os.path.join(TOP, "ci", "native_calls.c"), "-Wl,--wrap=malloc,--wrap=realloc"
EXAMPLES = os.path.join(TOP, "examples")
FROM_A_FILE = os.path.join(EXAMPLES, "from_a_file.script")
JAVA = os.path.join(TOP, "bindings", "java")
NO_WORDS, LONG, SMALL, BROKEN = 2, 7, 8, 9
THREADS, ROUNDS, FUZZ, REPEATED = 8, 20, 5000, 100000
# how much more memory a process may have at the end of its calls than after a tenth of them, in kB
GROWTH = 256
SCRIPT = b"window 100 50\nadd root View 30 20\nframe\nbounds\n"
ANSWER = b"v1\nsettled 0\nv1 0 0 30 20\n"
NO_QUESTIONS = ((b"", b"v1"), (b"UP", b"v1"), (b"up", b""), (b"up", b"1"), (b"up", b"v01"), (b"up", b"@"), (b"\xff", b"v1"),
                (b"up", b"v\xff"), (b"up", b"@123456789"))


Call = Tuple[List[str], bytes, str]
Ending = Tuple[int, int, bytes]
# what remains to be given to a call: a buffer of files, and the room for the answer
Waiting = Callable[[bytes, int], Ending]


def shared() -> str:
    """The path of the shared library."""
    found = native.path() or contents.beside(PROGRAM, dist.LIBRARY)
    if not os.path.exists(found):
        raise Skipped(found)
    return found


def archive() -> str:
    """The path of the static library."""
    return os.path.join(os.path.dirname(shared()), dist.ARCHIVE)


@functools.lru_cache(maxsize=None)
def loaded() -> native.Library:
    return native.Library(shared())


def compiled(place: str, name: str, words: Sequence[str]) -> str:
    """A program that `cc` makes of sources and the library."""
    program = os.path.join(place, name)
    include = "-I" + os.path.join(TOP, "include")
    command = [need("cc"), "-O1", "-g", "-Wall", "-Wextra", "-Werror", include, *words, "-o", program]
    subprocess.run(command, check=True)
    return program


def matching(form: str, *folder: str) -> List[str]:
    """The files of a folder of the repository whose names have a form."""
    return sorted(glob.glob(os.path.join(TOP, *folder, form)))


def worked() -> Iterator[Call]:
    """Each worked call: its words, its script, and the folder where its files are."""
    for path in [*matching("*.script", "examples"), *matching("*.script", "ci", "worked")]:
        yield ["run"], files.read(path), os.path.dirname(path)
        for side in forms.SIDES:
            yield ["focus", side, "v2"], files.read(path), os.path.dirname(path)
    for path in [*matching("*.stack", "examples"), *matching("*.stack", "ci", "worked")]:
        yield ["stack"], files.read(path), os.path.dirname(path)
    for path in [*matching("*.xml", "examples"), *matching("*.xml", "ci", "worked")]:
        yield ["dump", os.path.basename(path)], b"", os.path.dirname(path)
    for name in ("resources.arsc", "utf16.arsc"):
        folder = os.path.join(EXAMPLES, "app")
        yield ["lookup", name, "7f010000", "7f020000", "7f030001", "00000000"], b"", folder
    for path in matching("*.md", "docs"):
        with open(path, encoding="utf-8") as page:
            for _, form, lines in pages.blocks(page.read().splitlines()):
                if form[:1] == ["script"]:
                    yield ["run"], pages.text(lines), TOP
    yield ["focus", "down", "@0"], b"window 9 9\nadd root View 1 1\nframe\n", TOP


def by_library(words: List[str], script: bytes, folder: str) -> native.Answer:
    """What the library answers."""
    asked = in_process.asked_of(loaded(), words, script)
    found = None if asked is None else in_process.contents_of(asked.names, folder, asked.limit)
    assert asked is not None and found is not None
    return asked.call(files=found)


def same_bytes() -> str:
    """Why the library's answer to a worked call is not the program's, or nothing."""
    count = 0
    for words, script, folder in worked():
        why = difference(*run([PROGRAM, *words], script, folder), *by_library(words, script, folder))
        if why:
            return "%s over %r: %s" % (" ".join(words), script[:60], why)
        count += 1
    return "" if count > 100 else "there are only %d worked calls" % count


def stored_calls() -> Iterator[Call]:
    """Each stored case that the library has a call for: its words, its script, and its folder."""
    for folder in (it for place in stored.places() for it in stored.folders(place)):
        words = files.read(os.path.join(folder, "args")).decode("utf-8", "replace").split("\n")[:-1]
        if forms.has_form(words) and words[0] != "gen":
            yield words, files.read(os.path.join(folder, "stdin")), folder


def stored_cases() -> str:
    """Why the library's answer to a stored case is not the program's, or nothing."""
    count = 0
    for words, script, folder in stored_calls():
        ended = run([PROGRAM, *words], script, folder)
        why = difference(*ended, *by_library(words, script, folder)) if ended[1] in in_process.ENDED else ""
        if why:
            return "%s: %s" % (folder, why)
        count += 1
    return "" if count else "no case is there"


def own_symbols() -> str:
    own = set(library.exported())
    for path, words in ((shared(), ["nm", "-D", "--defined-only"]), (archive(), ["nm", "-g", "--defined-only"])):
        said = subprocess.run([*words, path], stdout=subprocess.PIPE, check=True).stdout.decode()
        found = set(re.findall(r" [A-Z] (\w+)$", said, re.M))
        if found != own:
            return "%s shows %s" % (os.path.basename(path), " ".join(sorted(found ^ own)))
    return ""


def call_of(name: str) -> Callable[..., int]:
    """A function of the library."""
    function: Callable[..., int] = getattr(loaded()._loaded, "vindaesk_" + name)
    return function


def raw(function: Callable[..., int], given: Sequence[object], held: bytes, room: int) -> Ending:
    """A call with a buffer of this room: the status, the size, and the buffer, whose bytes were 0xa5."""
    buffer = ctypes.create_string_buffer(b"\xa5" * (room + 1), room + 1)
    size = ctypes.c_size_t(77)
    status: int = function(*given, *native.bytes_parts(held), buffer, ctypes.c_size_t(room), ctypes.byref(size))
    return status, size.value, buffer.raw[:room]


def by_bytes(function: Callable[..., int], given: bytes) -> Waiting:
    """A call that takes bytes."""
    return partial(raw, function, native.bytes_parts(given))


def by_ids(name: bytes, *ids: int) -> Waiting:
    """A look-up."""
    numbers = (ctypes.c_uint32 * max(len(ids), 1))(*ids)
    return partial(raw, call_of("lookup"), [*native.bytes_parts(name), numbers, ctypes.c_size_t(len(ids))])


def by_words(*words: bytes) -> Waiting:
    """A question after the script."""
    return partial(raw, call_of("focus"), native.bytes_parts(SCRIPT, *words))


def statuses() -> str:
    """Each status, with the size and the buffer that belong to it."""
    filler, size = b"\xa5", len(ANSWER)
    run_it, dump = partial(by_bytes, call_of("run")), partial(by_bytes, call_of("dump"))
    lines, asked = run_it(SCRIPT), b"v1\nsettled 0\nv1 0 0 30 20\nfocus none\n"
    one, lengths = native.packed({b"a.xml": b"abc"}), struct.pack
    far = lengths("<QQ", 1 << 63, 1 << 63) + b"a"
    long = run_it(b"#\n" * (1 << 23) + b"#")
    wanted: List[Tuple[Waiting, bytes, int, Ending]] = [
        (lines, b"", size + 9, (0, size, ANSWER + 9 * filler)),
        (lines, b"", size, (0, size, ANSWER)),
        (lines, b"", size - 1, (SMALL, size, (size - 1) * filler)),
        (lines, b"", 0, (SMALL, size, b"")),
        (run_it(b""), b"", 4, (0, 0, 4 * filler)),
        (run_it(b"?\n"), b"", 26, (1, 26, b"line 1: refused 31 Syntax\n")),
        (run_it(b"#\n" * (1 << 23)), b"", 4, (0, 0, 4 * filler)),
        (long, b"", 4, (LONG, 0, 4 * filler)),
        (long, b"x", 4, (LONG, 0, 4 * filler)),
        *[(lines, it, 64, (BROKEN, 0, 64 * filler)) for it in (b"x", one[:-1], one + b"x", far, one + one[:20])],
        *[(lines, it, size, (0, size, ANSWER)) for it in (one, one + one, lengths("<QQ", 0, 0))],
        *[(dump(it), one, 4, (NO_WORDS, 0, 4 * filler)) for it in (b"", b".a", b"a/b", b"a" * 65, b"\xff", b"a\n")],
        (by_ids(b"a.xml"), one, 4, (NO_WORDS, 0, 4 * filler)),
        (by_ids(b"a.xml", *range(65)), one, 4, (NO_WORDS, 0, 4 * filler)),
        (by_ids(b".a", 1), one, 4, (NO_WORDS, 0, 4 * filler)),
        (by_ids(b"a.xml", 1), one + b"x", 4, (BROKEN, 0, 4 * filler)),
        (by_words(b"up", b"v1"), b"", 64, (0, len(asked), asked + (64 - len(asked)) * filler)),
        (by_words(b"up", b"v1"), b"", 9, (SMALL, len(asked), 9 * filler)),
        (by_words(b"up", b"v1"), b"x", 4, (BROKEN, 0, 4 * filler)),
        *[(by_words(*it), b"x", 4, (NO_WORDS, 0, 4 * filler)) for it in NO_QUESTIONS],
    ]
    for number, (call, held, room, ending) in enumerate(wanted):
        found = call(held, room)
        if found != ending:
            return "the call %d with files %r and room %d ends with %r" % (number, held[:40], room, found)
    return ""


def tools_call_it() -> str:
    """A tool has the library beside the program in place of the program from its second run on, and the program alone where
    the variable says so: the program here takes one run."""
    words = [sys.executable, os.path.join(TOP, "tools", "tree"), "--jobs", "1",
             *(os.path.join(EXAMPLES, it) for it in ("first.script", "card.script"))]
    for more, wanted in (("", 0), (native.NONE, 1)):
        with tempfile.TemporaryDirectory() as place:
            program, used = os.path.join(place, "view_tool"), os.path.join(place, "used")
            text = "#!/bin/sh\n[ -e '%s' ] && exit 5\n: > '%s'\nexec '%s' \"$@\"\n" % (used, used, PROGRAM)
            files.replace(program, text.encode())
            os.chmod(program, 0o755)
            shutil.copy(shared(), os.path.join(place, dist.LIBRARY))
            ended = subprocess.run(words, env={**os.environ, "VINDAESK_PROGRAM": program, native.VARIABLE: more},
                                   stdout=subprocess.PIPE, stderr=subprocess.DEVNULL)
            if ended.returncode != wanted or (b"Meeting" in ended.stdout) != (wanted == 0):
                return "with %s=%s: status %d, %r" % (native.VARIABLE, more, ended.returncode, ended.stdout)
    return ""


def first_of_equal_names() -> str:
    """Of files with equal names the first counts."""
    a, b = files.read(os.path.join(EXAMPLES, "a.xml")), b"no layout"
    held = native.packed({b"a.xml": a}) + native.packed({b"a.xml": b})
    status, size, found = by_bytes(call_of("dump"), b"a.xml")(held, 4096)
    return difference(*run([PROGRAM, "dump", "a.xml"], b"", EXAMPLES), found[:size], status)


def threads() -> str:
    """Several threads call at once, each over all worked calls that are short."""
    calls = [(it, by_library(*it)) for it in worked() if len(it[1]) < 2000]
    wrong: List[bytes] = []

    def work(number: int) -> None:
        for turn in range(ROUNDS):
            for call, answer in calls[number % 3 :: 3]:
                if by_library(*call) != answer:
                    wrong.append(call[1][:60])

    started = [threading.Thread(target=work, args=(number,)) for number in range(THREADS)]
    for it in started:
        it.start()
    for it in started:
        it.join()
    return "%d answers differ, as over %r" % (len(wrong), wrong[0]) if wrong else ""


def example() -> str:
    """The example in C, linked with the shared library."""
    with tempfile.TemporaryDirectory() as place:
        source = os.path.join(EXAMPLES, "native", "lay_out.c")
        program = compiled(place, "lay_out", [source, shared(), "-Wl,-rpath," + os.path.dirname(shared())])
        script = b"window 360 640\ninflate page.xml\nframe\nbounds\n"
        return difference(*run([PROGRAM, "run"], script, EXAMPLES), *run([program, "page.xml"], b"", EXAMPLES))


def calls(words: List[str], wanted: str, flags: Sequence[str] = ()) -> str:
    """What native_calls.c prints for these words has a form."""
    with tempfile.TemporaryDirectory() as place:
        program = compiled(place, "native_calls", [CALLS, archive(), WRAPPED, *flags])
        ended = subprocess.run([program, *words], stdout=subprocess.PIPE, stderr=subprocess.STDOUT, timeout=None)
    said = ended.stdout.decode("utf-8", "replace")
    if ended.returncode or not re.search(wanted, said):
        return "%s: status %d: %s" % (words[0], ended.returncode, said[-2000:])
    return ""


def inputs() -> List[str]:
    return [it for form in ("*.script", "*.xml", "*.stack", "app/*.arsc") for it in matching(form, "examples")]


def refused_memory() -> str:
    return calls(["refuse", FROM_A_FILE, *matching("*.xml", "examples")], r"^\d+ requests, [1-9]\d* of them needed")


def flat() -> str:
    words = ["repeat", str(REPEATED), FROM_A_FILE, *matching("*.xml", "examples")]
    with tempfile.TemporaryDirectory() as place:
        program = compiled(place, "native_calls", [CALLS, archive(), WRAPPED])
        said = subprocess.run([program, *words], stdout=subprocess.PIPE, check=True).stdout.decode()
    before, after = map(int, re.findall(r"(\d+) kB", said))
    return "" if after <= before + GROWTH else "%d kB after a tenth of the calls, %d kB at the end" % (before, after)


def wrong_libraries() -> str:
    """A variable that names no library is said by a tool, with the status 126."""
    script = os.path.join(EXAMPLES, "card.script")
    for named in ("/no/library", script):
        ended = subprocess.run([os.path.join(TOP, "tools", "tree"), script], stdout=subprocess.DEVNULL,
                               stderr=subprocess.PIPE, env={**os.environ, "VINDAESK_LIBRARY": named})
        said = ended.stderr.decode()
        if ended.returncode != 126 or "the library %s can't be loaded" % named not in said or said.count("\n") != 1:
            return "%s: status %d, %r" % (named, ended.returncode, said)
    return ""


def java() -> str:
    """The examples in Java."""
    home = os.path.dirname(os.path.dirname(os.path.realpath(need("javac"))))
    with tempfile.TemporaryDirectory() as place:
        include = [os.path.join("-I" + home, "include"), os.path.join("-I" + home, "include", "linux")]
        shim = os.path.join(JAVA, "vindaesk_jni.c")
        compiled(place, "libvindaesk_jni.so", ["-shared", "-fPIC", *include, shim, archive()])
        sources = [os.path.join(JAVA, "src", "vindaesk", "Vindaesk.java")]
        sources += matching("*.java", "examples", "native")
        subprocess.run(["javac", "-Xlint:all", "-Werror", "-d", place, *sources], check=True)
        command = ["java", "-Djava.library.path=" + place, "-cp", place]
        found = run([*command, "LayOut", os.path.join(EXAMPLES, "page.xml")], b"", EXAMPLES)
        script = b"window 360 640\ninflate page.xml\nframe\nbounds\n"
        tests = run([*command, "ScreenTest", EXAMPLES], b"", EXAMPLES)
        why = "" if tests[1] == 0 else "ScreenTest: %s" % tests[0].decode("utf-8", "replace")
        return why or difference(*run([PROGRAM, "run"], script, EXAMPLES), *found)


def checks() -> Checks:
    yield "native/no symbol but its own", own_symbols
    yield "native/each status", statuses
    yield "native/the first of equal names", first_of_equal_names
    yield "native/the bytes of the program", same_bytes
    yield "native/tools call it", tools_call_it
    if stored.places():
        yield "native/stored cases", stored_cases
    yield "native/several threads", threads
    yield "native/the example in C", example
    yield "native/a wrong library", wrong_libraries
    yield "native/random calls", partial(calls, ["fuzz", str(FUZZ), "1", *inputs()], r"status 9: [1-9]")
    yield "native/each request for memory refused", refused_memory
    yield "native/the memory of a process", flat
    yield "native/the example in Java", java


def main() -> int:
    if len(sys.argv) != 3 or sys.argv[1] != "fuzz" or not sys.argv[2].isdigit():
        print(__doc__.rstrip())
        return 2
    why = calls(["fuzz", sys.argv[2], str(os.getpid()), *inputs()], r"status 9: [1-9]", ["-fsanitize=address"])
    print(why or "%s calls kept their promises" % sys.argv[2])
    return 1 if why else 0


if __name__ == "__main__":
    sys.exit(main())

"""What is as long as it may be, and what is longer by one: a script, a layout file, and the table of resources."""
import os
import tempfile
from typing import Dict, List, Tuple

from running import PROGRAM, Checks, difference, named, run

MAX_SCRIPT, MAX_FILE, MAX_RESOURCES = 1 << 24, 1 << 20, 4096


def over(words: List[str], given: bytes, files: Dict[str, bytes]) -> Tuple[bytes, int]:
    """What a call writes in a folder that has these files, and the status."""
    with tempfile.TemporaryDirectory() as folder:
        for name, contents in files.items():
            with open(os.path.join(folder, name), "wb") as file:
                file.write(contents)
        return run([PROGRAM, *words], given, folder)


def takes_the_longest_script() -> str:
    """Lines without a word write nothing."""
    why = difference(b"", 0, *over(["run"], b"\n" * MAX_SCRIPT, {}))
    return why or difference(b"", 7, *over(["run"], b"\n" * (MAX_SCRIPT + 1), {}))


def refuses_a_longer_file() -> str:
    """A file of zeros."""
    found = over(["dump", "a.xml"], b"", {"a.xml": bytes(MAX_FILE + 1)})
    return difference(b"file: refused 40 LongFile\n", 1, *found)


def refuses_more_resources() -> str:
    """A new id is one too many, and an id that is there gets another value."""
    ids = [*range(1, MAX_RESOURCES + 1), MAX_RESOURCES + 1, 1]
    lines = ["res @%x dimen 1 px" % number for number in ids[:-2]] + ["res @%x text a" % number for number in ids[-2:]]
    script = "".join(line + "\n" for line in lines).encode()
    return difference(b"line %d: refused 15 Full\n" % (MAX_RESOURCES + 1), 1, *over(["run"], script, {}))


def reads_no_more_of_a_file_than_it_takes() -> str:
    """A file of 3 GiB, in a process that may have 256 MiB."""
    with tempfile.TemporaryDirectory() as folder:
        with open(os.path.join(folder, "a.xml"), "wb") as file:
            file.truncate(3 << 30)
        words = ["bash", "-c", "ulimit -v 262144; exec \"$@\"", "bash", PROGRAM]
        why = difference(b"file: refused 40 LongFile\n", 1, *run([*words, "dump", "a.xml"], b"", folder))
        script = b"add root FrameLayout 1 1\ninflate a.xml into v1\n"
        return why or difference(b"v1\nline 2: refused 40 LongFile\n", 1, *run([*words, "run"], script, folder))


def ends_at_a_file_that_cannot_be_opened() -> str:
    """A link that leads to itself, which is there: so it is not refused as missing."""
    with tempfile.TemporaryDirectory() as folder:
        os.symlink("a.xml", os.path.join(folder, "a.xml"))
        why = difference(b"", 6, *run([PROGRAM, "dump", "a.xml"], b"", folder))
        script = b"add root FrameLayout 1 1\ninflate a.xml into v1\n"
        return why or difference(b"v1\n", 6, *run([PROGRAM, "run"], script, folder))


def checks() -> Checks:
    yield from named("limits", (
        takes_the_longest_script, refuses_a_longer_file, refuses_more_resources, reads_no_more_of_a_file_than_it_takes,
        ends_at_a_file_that_cannot_be_opened,
    ))

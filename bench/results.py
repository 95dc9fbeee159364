"""Figures of `bench/run` that are kept: one file for each time, whose name has the date and the commit, and how two of
them differ. A file begins with a line on the commit, the machine and its load; figures of other machines compare only
by their ratios."""
import contextlib
import datetime
import glob
import os
import re
import subprocess
import sys

FOLDER = os.path.join(os.path.dirname(os.path.realpath(__file__)), "results")
# processor times that differ by less say nothing
LEAST = 0.02
# the name, the size, lines or views or bytes, the wall time and the processor time
ROW = re.compile(r"(.{34}) +(\S+) +(\S+) +([0-9.]+) +([0-9.]+) ")


def commit():
    """The commit that is measured, and a mark where files have changed since."""
    words = ["git", "-C", FOLDER, "describe", "--always", "--dirty", "--abbrev=12", "--exclude", "*"]
    ended = subprocess.run(words, stdout=subprocess.PIPE, stderr=subprocess.DEVNULL)
    return ended.stdout.decode().strip() or "unknown"


def machine():
    """The processor, how many there are, and how busy they were."""
    with contextlib.suppress(OSError), open("/proc/cpuinfo") as file:
        names = re.findall(r"model name\s*: (.*)", file.read())
        return "%s, %d processors, load %.1f" % (names[0] if names else "unknown", os.cpu_count() or 1, os.getloadavg()[0])
    return "unknown"


def rows(text):
    """The processor time of each row of a file, by its name and its size."""
    found = (ROW.match(line) for line in text.splitlines())
    return {(it[1].strip(), it[2]): float(it[5]) for it in found if it}


def changes(before, after):
    """The rows that take other processor time than before: a line for each."""
    old, new = rows(before), rows(after)
    for name in new:
        if name in old and abs(new[name] - old[name]) > max(LEAST, old[name] / 10):
            yield "%-34s %8s: %.3f s, and %.3f before" % (*name, new[name], old[name])


class Both:
    """A stream that is written to two."""

    def __init__(self, first, second):
        self.streams = (first, second)

    def write(self, text):
        for stream in self.streams:
            stream.write(text)

    def flush(self):
        for stream in self.streams:
            stream.flush()


@contextlib.contextmanager
def kept(kind=""):
    """What is printed goes also to a new file, whose name begins with their kind; rows of no kind are compared with the newest
    file before it."""
    os.makedirs(FOLDER, exist_ok=True)
    before = sorted(glob.glob(os.path.join(FOLDER, "[0-9]*.txt")))
    name = "%s%s-%s.txt" % (kind, datetime.datetime.now().strftime("%Y-%m-%d-%H%M%S"), commit())
    with open(os.path.join(FOLDER, name), "w") as file:
        file.write("commit %s; %s\n" % (commit(), machine()))
        printed, sys.stdout = sys.stdout, Both(sys.stdout, file)
        try:
            yield
        finally:
            sys.stdout = printed
    print("kept in bench/results/" + name)
    if before and not kind:
        with open(before[-1]) as old, open(os.path.join(FOLDER, name)) as new:
            found = list(changes(old.read(), new.read()))
        print("\n".join(["since " + os.path.basename(before[-1]) + ":", *(found or ["no row differs by a tenth"])]))

"""Makes many stored scripts for checks and measurements: the same ones each time. `ci/corpus.py COUNT DIR` writes
them."""
import os
import random
import sys
from typing import Iterator, List

PER_FOLDER = 200
LINES = 60


def views(random_of: random.Random) -> Iterator[str]:
    """The lines of a tree, and of what is done to it."""
    yield "window %d %d" % (random_of.randrange(100, 400), random_of.randrange(100, 700))
    yield "add root LinearLayout match match"
    parents = [1]
    for number in range(2, LINES // 4):
        is_group = random_of.random() < 0.4
        kind = random_of.choice(("FrameLayout", "LinearLayout")) if is_group else random_of.choice(("View", "TextView"))
        sides = [random_of.choice(("match", "wrap", str(random_of.randrange(90)))) for _ in range(2)]
        yield "add v%d %s %s" % (random_of.choice(parents), kind, " ".join(sides))
        parents += [number] if is_group else []
        if kind == "TextView":
            yield "text v%d %s" % (number, " ".join("word%d" % random_of.randrange(99) for _ in range(6)))
        word = random_of.choice(("padding", "margins"))
        yield "%s v%d %d %d 2 3" % (word, number, random_of.randrange(9), random_of.randrange(9))
        yield "bg v%d #ff%06x" % (number, random_of.randrange(1 << 24))
    yield from ("frame", "bounds", "size v2 %d 20" % random_of.randrange(90), "frame", "bounds", "digest")
    yield from ("down 0 9 9", "move 0 20 20", "up 0")


def script(number: int) -> bytes:
    """The script of a number."""
    return "\n".join(views(random.Random(number))).encode() + b"\n"


def make(count: int, folder: str) -> List[str]:
    """Writes scripts below a folder, 200 in each. Returns their paths."""
    paths = []
    for number in range(count):
        inner = os.path.join(folder, "part%03d" % (number // PER_FOLDER))
        os.makedirs(inner, exist_ok=True)
        paths.append(os.path.join(inner, "s%05d.script" % number))
        with open(paths[-1], "wb") as file:
            file.write(script(number))
    return paths


if __name__ == "__main__":
    make(int(sys.argv[1]), sys.argv[2])

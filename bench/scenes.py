"""Trees of a stated number of views and depth, and what changes in them before each frame: the same for each engine."""
from typing import Callable, List, NamedTuple, Sequence, Tuple

# the side of a leaf, and the window that all of these trees fit in: a small one, so that the picture takes little
SIDE = 2
WINDOW = b"window 200 400\n"

Edit = Callable[[int], bytes]


class Scene(NamedTuple):
    """The lines up to the first frame, and those of the k-th edit, which no `frame` ends."""

    begun: bytes
    edit: Edit
    views: int


class Tree(NamedTuple):
    """How many views each level has, from the root on: those of the last level are the leaves. The views of a level are
    shared out evenly among those of the level above."""

    widths: Sequence[int]

    def views(self) -> int:
        return sum(self.widths)

    def first(self, level: int) -> int:
        """The number of the first view of a level."""
        return 1 + sum(self.widths[:level])

    def middle(self) -> int:
        """The leaf in the middle."""
        return self.first(len(self.widths) - 1) + self.widths[-1] // 2

    def parent(self, level: int, place: int) -> int:
        """The view above the one at a place of a level."""
        return self.first(level - 1) + place * self.widths[level - 1] // self.widths[level]


def even(views: int, depth: int) -> Tree:
    """A tree of this many views, in which each level has about the same multiple of the views of the level above."""
    low, high = 1.0, float(views)
    for _ in range(60):
        ratio = (low + high) / 2
        low, high = (ratio, high) if sum(int(ratio**level) for level in range(depth)) < views else (low, ratio)
    above = [int(low**level) for level in range(depth - 1)]
    return Tree([*above, views - sum(above)])


def grid(rows: int) -> Tree:
    """A column of rows of 10 columns of 12 leaves."""
    return Tree([1, rows, rows * 10, rows * 120])


def extents(tree: Tree) -> List[Tuple[int, int]]:
    """How wide and high each view is where groups take what they need, by its number; first those of no view. Levels run
    down and across by turns."""
    found = [(0, 0)] * (tree.views() + 1)
    for level in range(len(tree.widths) - 1, -1, -1):
        for place in range(tree.widths[level]):
            number = tree.first(level) + place
            if level == len(tree.widths) - 1:
                found[number] = SIDE, SIDE
            if level:
                above = tree.parent(level, place)
                (width, height), (wide, high) = found[above], found[number]
                found[above] = (max(width, wide), height + high) if level % 2 else (width + wide, max(height, high))
    return found


def lines(tree: Tree, group: bytes, is_fixed: bool, changed: bytes = b"View %d %d" % (SIDE, SIDE)) -> bytes:
    """The lines that make a tree of groups of a class, which wrap or have the size that they would have then. The leaf in
    the middle is made as stated."""
    sizes, made = extents(tree), []
    for level, width in enumerate(tree.widths):
        for place in range(width):
            number = tree.first(level) + place
            what = b"%s %s" % (group, b"%d %d" % sizes[number] if is_fixed else b"wrap wrap")
            if level == len(tree.widths) - 1:
                what = changed if number == tree.middle() else b"View %d %d" % (SIDE, SIDE)
            made.append(b"add %s %s\n" % (b"v%d" % tree.parent(level, place) if level else b"root", what))
            if group == b"LinearLayout" and level % 2 == 0 and level < len(tree.widths) - 1:
                made.append(b"orient v%d vertical\n" % number)
    return b"".join(made)


def one_leaf(tree: Tree, group: bytes, is_fixed: bool) -> Scene:
    """The leaf in the middle gets another size."""
    leaf = tree.middle()
    edit: Edit = lambda k: b"size v%d %d %d\n" % (leaf, SIDE + k % 7, SIDE + k % 5)
    return Scene(WINDOW + lines(tree, group, is_fixed), edit, tree.views())


def all_leaves(tree: Tree, group: bytes, is_fixed: bool) -> Scene:
    """Each leaf gets another size, by a line of its own."""
    numbers = range(tree.first(len(tree.widths) - 1), tree.views() + 1)
    edit: Edit = lambda k: b"".join(b"size v%d %d %d\n" % (it, 1 + k % 2, 1 + k % 2) for it in numbers)
    return Scene(WINDOW + lines(tree, group, is_fixed), edit, tree.views())


def all_anew(tree: Tree, group: bytes, is_fixed: bool) -> Scene:
    """The direction of the root turns: all views are measured and laid out anew."""
    edit: Edit = lambda k: b"direction v1 %s\n" % (b"rtl", b"ltr")[k % 2]
    return Scene(WINDOW + lines(tree, group, is_fixed), edit, tree.views())


def text(tree: Tree, group: bytes, is_fixed: bool) -> Scene:
    """The leaf in the middle, which wraps its text, gets one of as many letters."""
    leaf = tree.middle()
    edit: Edit = lambda k: b"text v%d %02d:%02d\n" % (leaf, k % 24, k % 60)
    begun = lines(tree, group, is_fixed, b"TextView wrap wrap")
    return Scene(WINDOW + begun + b"text v%d 23:59\n" % leaf, edit, tree.views())


def colour(tree: Tree, group: bytes, is_fixed: bool) -> Scene:
    """The leaf in the middle gets another background."""
    leaf = tree.middle()
    edit: Edit = lambda k: b"bg v%d #ff%06x\n" % (leaf, 0x336699 + k)
    return Scene(WINDOW + lines(tree, group, is_fixed), edit, tree.views())


def windows(tree: Tree, group: bytes, is_fixed: bool) -> Scene:
    """The window gets another width."""
    edit: Edit = lambda k: b"window %d 60\n" % (200 + k % 35)
    return Scene(b"window 199 60\n" + lines(tree, group, is_fixed), edit, tree.views())


def scroll(rows: int) -> Scene:
    """A list of coloured rows, 20 of which are in the window, moves by one pixel."""
    begun = b"window 320 480\nadd root ScrollView match match\nadd v1 LinearLayout match wrap\norient v2 vertical\n"
    made = b"".join(b"add v2 View match 24\nbg v%d #ff%06x\n" % (3 + row, row * 4099 % 0x1000000) for row in range(rows))
    edit: Edit = lambda k: b"scroll v1 %d\n" % (1 + k)
    return Scene(begun + made, edit, rows + 2)

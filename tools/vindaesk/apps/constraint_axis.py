"""The children of a ConstraintLayout on one axis: where each begins and ends, by its anchors, chains, guidelines and
barriers. All are pixels from the side where the axis begins."""
from fractions import Fraction
from typing import Dict, List, NamedTuple, Optional, Set, Tuple

from .constraints import BASELINE, PACKED, PARENT, SPREAD_INSIDE, Anchor, Child, Constraints, Line, Tie
from .draft import MATCH
from .report import Effect

Place = Tuple[int, int]
# how many children are followed from one to the other
MAX_PATH = 256


def rounded(number: Fraction) -> int:
    """The nearest whole number, a half upward."""
    return (number + Fraction(1, 2)).__floor__()


class Axis(NamedTuple):
    """An axis, 0 across and 1 down: how long it is, the padding at both ends, the size of each child that is known, and
    how far below its top its text begins."""

    axis: int
    size: int
    padding: Tuple[int, int]
    sizes: Dict[int, int]
    texts: Dict[int, int]


def limited(tie: Tie, size: int) -> int:
    """A size between the least and the greatest one of a child."""
    size = min(size, tie.most) if tie.most > 0 else size
    return max(size, tie.least, 0)


class Solver:
    """Places the children of one group on one axis."""

    def __init__(self, group: Constraints, axis: Axis):
        self.axis = axis
        self.children = {it.number: it for it in group.children}
        self.lines = {it.number: it for it in group.lines if it.axis == axis.axis}
        self.places: Dict[int, Place] = {PARENT: (axis.padding[0], axis.size - axis.padding[1])}

    def tie(self, child: Child) -> Tie:
        """What a child is tied to on this axis."""
        return child.ties[self.axis.axis]

    def margin(self, anchor: Anchor) -> int:
        """The margin of a side; another one may count where the other view is gone."""
        other = self.children.get(anchor.target)
        return anchor.gone_margin if other is not None and other.is_gone else anchor.margin

    def at(self, anchor: Optional[Anchor]) -> Optional[int]:
        """Where a side is that something is tied to, if it is known."""
        found = self.places.get(anchor.target) if anchor else None
        return found[anchor.is_end] if found is not None and anchor is not None else None

    def is_there(self, anchor: Optional[Anchor]) -> bool:
        """Whether the other view of an anchor is one of this group."""
        return anchor is not None and (
            anchor.target == PARENT or anchor.target in self.children or anchor.target in self.lines
        )

    def solve(self) -> List[int]:
        """Places all that can be placed; returns the children that tie one another in a circle."""
        chains = self.chains()
        in_chain = {it for chain in chains for it in chain}
        left = [it for it in self.children if it not in in_chain]
        waiting: List[object] = [*chains, *left, *[it for it in self.lines.values()]]
        while waiting:
            before = len(waiting)
            waiting = [it for it in waiting if not self.step(it)]
            if len(waiting) == before:
                break
        stuck = [it for it in self.children if it not in self.places]
        for number in stuck:
            size = self.axis.sizes.get(number, 0)
            self.places[number] = (self.axis.padding[0], self.axis.padding[0] + size)
        return stuck

    def step(self, it: object) -> bool:
        """Places a child, a chain or a line, if all that it depends on is placed."""
        if isinstance(it, Line):
            return self.line(it)
        if isinstance(it, list):
            return self.chain(it)
        assert isinstance(it, int)
        return self.single(self.children[it])

    def line(self, line: Line) -> bool:
        """Places a guideline or a barrier."""
        begin, end = self.places[PARENT][0] - self.axis.padding[0], self.axis.size
        if line.views:
            found = [self.places.get(it) for it in line.views if it in self.children and not self.children[it].is_gone]
            if any(it is None for it in found):
                return False
            sides = [it[line.is_at_ends] for it in found if it is not None]
            place = (max(sides) + line.margin if line.is_at_ends else min(sides) - line.margin) if sides else begin
        elif line.begin is not None:
            place = begin + line.begin
        elif line.end is not None:
            place = end - line.end
        else:
            place = rounded((line.share if line.share is not None else Fraction(0)) * end)
        self.places[line.number] = (place, place)
        return True

    def size_in(self, child: Child, room: Optional[int]) -> int:
        """The size of a child in the room between its anchors."""
        tie, natural = self.tie(child), self.axis.sizes.get(child.number, 0)
        if child.is_gone:
            return 0
        if tie.size != MATCH:
            return natural
        if tie.share is not None:
            return limited(tie, rounded(tie.share * self.axis.size))
        if child.ratio is not None and child.number in self.axis.sizes and room is None:
            return limited(tie, natural)
        if tie.by_content:
            return limited(tie, min(natural, room) if room is not None else natural)
        return limited(tie, room if room is not None else natural)

    def single(self, child: Child) -> bool:
        """Places a child by the circle that it is on, by its baseline, or by its anchors."""
        for target, place in ((child.circle and child.circle.target, self.on_circle), (child.baseline, self.on_baseline)):
            if target is not None and (target in self.children or target == PARENT):
                return place(child, target)
        return self.by_anchors(child)

    def by_anchors(self, child: Child) -> bool:
        """Places a child by its own anchors."""
        tie = self.tie(child)
        begin, end = (it if self.is_there(it) else None for it in (tie.begin, tie.end))
        low, high = self.at(begin), self.at(end)
        if (begin and low is None) or (end and high is None):
            return False
        if begin and low is not None:
            low += 0 if child.is_gone else self.margin(begin)
        if end and high is not None:
            high -= 0 if child.is_gone else self.margin(end)
        if low is not None and high is not None:
            size = self.size_in(child, max(high - low, 0))
            at = low + rounded((high - low - size) * tie.bias)
        else:
            size = self.size_in(child, None)
            at = low if low is not None else high - size if high is not None else self.axis.padding[0]
        self.places[child.number] = (at, at + size)
        return True

    def on_baseline(self, child: Child, target: int) -> bool:
        """Places a child so that its text is as high as that of another one."""
        if self.axis.axis == 0:
            return self.by_anchors(child)
        other = self.places.get(target)
        if other is None:
            return False
        texts = self.axis.texts
        begin = other[0] + texts.get(target, 0) - texts.get(child.number, 0)
        if not {target, child.number} <= texts.keys() and child.node.record is not None:
            child.node.record.approximate(BASELINE, "the tops are aligned, not the baselines", Effect.BOUNDS)
        self.places[child.number] = (begin, begin + self.size_in(child, None))
        return True

    def on_circle(self, child: Child, target: int) -> bool:
        """Places a child on a circle around another one."""
        around = self.places.get(target)
        if around is None or child.circle is None:
            return False
        size = self.size_in(child, None)
        begin = rounded(Fraction(sum(around) - size, 2) + child.circle.away[self.axis.axis])
        self.places[child.number] = (begin, begin + size)
        return True

    # chains

    def next_of(self, child: Child) -> Optional[Child]:
        """The child after another one in a chain: each is tied to the other one."""
        end = self.tie(child).end
        other = self.children.get(end.target) if end is not None and not end.is_end else None
        begin = self.tie(other).begin if other is not None else None
        is_both = begin is not None and begin.target == child.number and begin.is_end
        return other if is_both and other is not child else None

    def chains(self) -> List[List[int]]:
        """The chains, each as its children in order."""
        after = {it.number: other.number for it in self.children.values() for other in [self.next_of(it)] if other}
        heads = [it for it in after if it not in after.values()]
        found = []
        for head in heads:
            chain = [head]
            while chain[-1] in after and after[chain[-1]] not in chain:
                chain.append(after[chain[-1]])
            found.append(chain)
        return found

    def chain(self, numbers: List[int]) -> bool:
        """Places a chain between the anchors of its ends."""
        children = [self.children[it] for it in numbers]
        first, last = self.tie(children[0]).begin, self.tie(children[-1]).end
        begin, end = (it if self.is_there(it) else None for it in (first, last))
        low, high = self.at(begin), self.at(end)
        if (begin and low is None) or (end and high is None):
            return False
        low = low if low is not None else self.axis.padding[0]
        high = high if high is not None else self.axis.size - self.axis.padding[1]
        self.spread(children, low, high)
        return True

    def gaps(self, children: List[Child]) -> List[int]:
        """The margins before each child of a chain, and after the last one."""
        found, before = [], 0
        for child in children:
            tie = self.tie(child)
            own = self.margin(tie.begin) if tie.begin and not child.is_gone else 0
            found.append(before + own)
            before = self.margin(tie.end) if tie.end and not child.is_gone else 0
        return found + [before]

    def spread(self, children: List[Child], low: int, high: int) -> None:
        """Shares the room of a chain: by weights, or in the gaps, or on both sides of all."""
        gaps = self.gaps(children)
        shown = [it for it in children if not it.is_gone]
        open_ones = [it for it in shown if self.tie(it).size == MATCH and self.tie(it).share is None
                     and not self.tie(it).by_content]
        sizes = {it.number: (0 if it in open_ones else self.size_in(it, None)) for it in children}
        rest = high - low - sum(gaps) - sum(sizes.values())
        if open_ones:
            self.share(open_ones, sizes, max(rest, 0))
            rest = high - low - sum(gaps) - sum(sizes.values())
        style, bias = self.tie(children[0]).chain, self.tie(children[0]).bias
        count = len(shown)
        if style == PACKED:
            lead, step = Fraction(rest) * bias, Fraction(0)
        elif style == SPREAD_INSIDE and count > 1:
            lead, step = Fraction(0), Fraction(rest, count - 1)
        elif style == SPREAD_INSIDE:
            lead, step = Fraction(rest) * bias, Fraction(0)
        else:
            lead, step = Fraction(rest, count + 1), Fraction(rest, count + 1)
        at = low + lead
        for child, gap in zip(children, gaps):
            at += gap
            size = sizes[child.number]
            self.places[child.number] = (rounded(at), rounded(at) + size)
            at += size + (Fraction(0) if child.is_gone else step)

    def share(self, children: List[Child], sizes: Dict[int, int], rest: int) -> None:
        """Shares room among children by their weights; without weights each gets as much."""
        weights = [self.tie(it).weight for it in children]
        weights = weights if any(weights) else [Fraction(1)] * len(children)
        total = sum(weights, Fraction(0))
        begin = Fraction(0)
        for child, weight in zip(children, weights):
            end = begin + rest * weight / total
            sizes[child.number] = limited(self.tie(child), rounded(end) - rounded(begin))
            begin = end


def solved(group: Constraints, axis: Axis) -> Tuple[Dict[int, Place], List[int]]:
    """Where the children of a group begin and end on an axis, and those that tie one another in a circle."""
    solver = Solver(group, axis)
    stuck = solver.solve()
    return solver.places, stuck


def needed(group: Constraints, axis: Axis) -> int:
    """How long an axis has to be for its children, where the group is as large as its content."""
    most = 0
    children = {it.number: it for it in group.children}
    for child in group.children:
        if not child.is_gone:
            both = path(children, axis, child, True) + path(children, axis, child, False)
            most = max(most, both + axis.sizes.get(child.number, 0))
    return most + sum(axis.padding)


def path(children: Dict[int, Child], axis: Axis, child: Child, to_begin: bool) -> int:
    """How much room is taken between a child and the side of the group to which its anchors lead."""
    room = 0
    seen: Set[int] = set()
    while child.number not in seen and len(seen) < MAX_PATH:
        seen.add(child.number)
        tie = child.ties[axis.axis]
        anchor = tie.begin if to_begin else tie.end
        if anchor is None:
            return room
        room += anchor.margin
        other = children.get(anchor.target)
        if other is None:
            return room
        if anchor.is_end == to_begin and not other.is_gone:
            room += axis.sizes.get(other.number, 0)
        child = other
    return room

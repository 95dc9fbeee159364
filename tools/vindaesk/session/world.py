"""Which lines make the present views again, with the numbers that they have.

A view is made by one line, and what was set of it last, and in what order, is all that counts of the other lines. What
a session cannot know of its views, as which of two hooks fired first, is a reason why they cannot be made again. The
new program is compared with the old one before it takes its place (renewal.py)."""
from dataclasses import dataclass
from typing import Dict, Iterator, List, Optional, Tuple, Union

from ..scripts import script
from ..views.view_tree import Tree, View
from .results import escaped

# how many words after the view say what a line sets, besides its first one
KEYS = {
    **dict.fromkeys(
        b"size min margins padding orient direction weight weightsum text bg ink visible id answer intercept".split(
            b" "
        ),
        0,
    ),
    **dict.fromkeys((b"gravity", b"flag", b"rule"), 1),
}
# what is over with a gesture, and what the bounds of a frame have
PASSING = (b"down", b"move", b"up", b"cancel", b"disallow", b"scroll")
CHILDLESS = ("View", "TextView")
# how many more lines than twice the views are kept before those of views that are gone are dropped
SPARE = 256

# the number of a view, and the words that say what is set of it
Key = Tuple[Union[int, bytes], ...]
# a line with its place in time
Timed = Tuple[int, bytes]


@dataclass
class Made:
    """A line that made views: the numbers of the first and the last, and the parent of each."""

    time: int
    line: bytes
    first: int
    parents: List[Optional[int]]

    @property
    def last(self) -> int:
        """The number of the last view."""
        return self.first + len(self.parents) - 1


class World:
    """What makes the views of a tree again. `why` says why they cannot be, for good."""

    def __init__(self, tree: Tree):
        self.tree = tree
        self.time = 0
        self.window, self.dpi = b"", b""
        self.resources: Dict[bytes, List[Timed]] = {}
        self.made: List[Made] = []
        self.sets: Dict[Key, Tuple[int, int, bytes]] = {}
        self.hooks: Dict[int, List[List[bytes]]] = {}
        # the last number of a view, and the time of the last line `inflate`
        self.last = 0
        self.inflated = 0
        # whether a frame has settled since lines changed something, and no pointer is down and no hook armed
        self.is_at_rest = False
        self.why = ""
        self._named = 0

    def before(self, words: List[bytes], line: bytes, reply: bytes) -> None:
        """A line was carried out that the tree does not know yet: keeps which view it names."""
        if words[0] in KEYS or words[0] in (b"remove", b"hook"):
            self._named = self.tree.view(words[1]).number

    def after(self, words: List[bytes], line: bytes, reply: bytes) -> None:
        """The tree has followed that line."""
        self.is_at_rest = False
        word = words[0]
        if word in PASSING:
            return
        self.time += 1
        if word in KEYS:
            self._set(self._named, words, line)
        elif word in (b"add", b"inflate"):
            self._make(words, line, reply)
        elif word == b"window":
            self.window = line
        elif word == b"dpi":
            self.dpi = line
        elif word == b"res":
            self._resource(words[1].lower(), line)
        elif word == b"remove":
            self._forget()
        elif word == b"hook":
            self._arm(words)
        elif word == b"frame":
            self._fire(int(reply.split(b" ")[1]))
        elif word not in (b"save", b"restore"):
            self.why = "what the line '%s' made is not known" % word.decode()

    def set_text(self, number: int, text: str) -> None:
        """A saved state gave a view a text."""
        # a carriage return at the end of a line is dropped
        end = b"\r" if text.endswith("\r") else b""
        line = b"text v%d %s%s" % (number, escaped(text).encode(), end)
        if len(line) > script.MAX_LINE:
            self.why = "a saved state gave v%d a text of %d characters, which no line has" % (number, len(text))
        self._set(number, [b"text"], line)

    def _set(self, number: int, words: List[bytes], line: bytes) -> None:
        key: Key = (number, words[0])
        self.sets[key + tuple(words[2 : 2 + KEYS[words[0]]])] = self.time, number, line

    def _make(self, words: List[bytes], line: bytes, reply: bytes) -> None:
        numbers = [int(it[1:]) for it in reply.split(b" ")[1:3]] if words[0] == b"inflate" else [int(reply[1:])] * 2
        views = [self.tree.views[it] for it in range(numbers[0], numbers[1] + 1)]
        parents = [it.parent.number if it.parent else None for it in views]
        around = parents[0]
        if around is not None and words[0] == b"add":
            line = renamed(line, b"v%d" % around)
        elif around is not None:
            line = b"inflate %s into v%d" % (words[1], around)
        if words[0] == b"inflate":
            self.inflated = self.time
        self.made.append(Made(self.time, line, numbers[0], parents))
        self.last = numbers[1]

    def _resource(self, name: bytes, line: bytes) -> None:
        """One that no later file was made with is replaced."""
        before = self.resources.setdefault(name, [])
        if before and before[-1][0] > self.inflated:
            before.pop()
        before.append((self.time, line))

    def _forget(self) -> None:
        """Views were removed."""
        self.hooks = {number: it for number, it in self.hooks.items() if number in self.tree.views}
        if len(self.made) > 2 * len(self.tree.views) + SPARE:
            self._prune()

    def _arm(self, words: List[bytes]) -> None:
        edits = [it.split(b" ") for it in b" ".join(words[2:]).split(b" ; ")]
        for it in edits:
            it[1] = b"v%d" % self.tree.view(it[1]).number
        self.hooks[self._named] = edits

    def _fire(self, count: int) -> None:
        """What hooks set is known where all fired, and no two of them set the same."""
        if count == 0:
            return
        every = [{(it[1], it[0], *it[2 : 2 + KEYS.get(it[0], 0)]) for it in edits} for edits in self.hooks.values()]
        if count != len(every) or len(set().union(*every)) != sum(map(len, every)):
            self.why = "it is not known what the hooks that fired have set"
            return
        for edit in [it for edits in self.hooks.values() for it in edits]:
            if int(edit[1][1:]) in self.tree.views:
                self.time += 1
                self._set(int(edit[1][1:]), edit, b" ".join(edit))
        self.hooks = {}

    def _prune(self) -> None:
        """Forgets what was made and set of views that are no longer there."""
        live = self.tree.views
        self.sets = {key: it for key, it in self.sets.items() if key[0] in live}
        self.made = [it for it in self.made if any(k in live for k in range(it.first, it.last + 1))]
        times = [it.time for it in self.made if it.line.startswith(b"inflate")]
        for name, lines in self.resources.items():
            ends = [time for time, _ in lines[1:]]
            used = [any(it[0] < time < end for time in times) for it, end in zip(lines, ends)]
            self.resources[name] = [it for it, is_used in zip(lines, used) if is_used] + lines[-1:]

    # the lines

    def lines(self, offsets: Dict[int, int]) -> Iterator[bytes]:
        """Lines after which a frame leaves what there is now, with the offsets of scroll views, by their numbers."""
        self._prune()
        live = [view for _, view in sorted(self.tree.views.items())]
        timed = [it for lines in self.resources.values() for it in lines]
        timed += [(it.time, line) for it, lines in zip(self.made, self._makings(live)) for line in lines]
        yield from (it for it in (self.window, self.dpi) if it)
        # those of one time stay in their order
        yield from (line for _, line in sorted(timed, key=lambda it: it[0]))
        yield from fillers(live, self.made[-1].last + 1 if self.made else 1, self.last)
        for _, number, line in sorted(self.sets.values()):
            yield renamed(line, b"v%d" % number)
        yield from (b"scroll v%d %d" % it for it in offsets.items())

    def _makings(self, live: List[View]) -> Iterator[List[bytes]]:
        """For each line that made views the lines that make them again: numbers that are no longer there are used up
        before, and of a file those views that were removed are removed."""
        number = 1
        for it in self.made:
            found = [*fillers(live, number, it.first - 1), it.line]
            for place, around in enumerate(it.parents, it.first):
                if place not in self.tree.views and around in self.tree.views:
                    found.append(b"remove v%d" % place)
            number = it.last + 1
            yield found


def fillers(live: List[View], first: int, last: int) -> Iterator[bytes]:
    """Lines that use up numbers, when those views that have numbers below are there."""
    if first <= last:
        around = next((b"v%d" % it.number for it in live if it.number < first and takes_child(it, first)), b"root")
    for number in range(first, last + 1):
        yield b"add %s View 0 0" % around
        yield b"remove v%d" % number


def takes_child(view: View, before: int) -> bool:
    """Whether a view takes one more child besides those below a number."""
    if view.kind == "ScrollView":
        return not any(it < before for it in view.children)
    return view.kind not in CHILDLESS


def renamed(line: bytes, name: bytes) -> bytes:
    """A line with the number of its view in the place of its name. What follows is as it was: a text has spaces."""
    text = line.lstrip(b" ")
    word, _, rest = text.partition(b" ")
    _, _, values = rest.lstrip(b" ").partition(b" ")
    return b"%s %s %s" % (word, name, values)

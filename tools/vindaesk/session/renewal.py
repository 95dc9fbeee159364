"""A new program in the place of one that has read nearly all that it reads: it gets the lines that make the same views
again, and takes over where its bounds and its picture are the same."""
from typing import Collection, Dict, List, Optional

from ..common.failures import Failure
from ..scripts import script
from .channel import Channel
from .errors import LineRefused
from .world import World

# the new program is begun once less than this part of what one reads is left, and may itself read this part for it
RESERVE, SHARE = 16, 2
# after how large a part of that it is tried again
AGAIN = 16
RESTORE = b"restore "


def reserve(channel: Channel) -> int:
    """How many bytes a program has left when a new one takes over."""
    return channel.limit // RESERVE


def next_due(channel: Channel) -> int:
    """How many it has left when that is tried again."""
    return channel.left - reserve(channel) // AGAIN


def why_not(world: World, kept: bytes, down: Collection[int]) -> str:
    """Why the views cannot be made again, with these pointers down; nothing where they can."""
    if world.why:
        return world.why
    if len(RESTORE + kept) > script.MAX_LINE:
        return "the saved state has %d digits, which no line has" % len(kept)
    if down:
        return "a pointer is down: %s" % ", ".join(map(str, sorted(down)))
    if world.hooks:
        return "a hook is armed: that of %s" % ", ".join("v%d" % it for it in sorted(world.hooks))
    return "" if world.is_at_rest else "lines came after the last frame that settled"


def offsets_in(lines: List[bytes]) -> Dict[int, int]:
    """The offsets of scroll views in the reply of `bounds`."""
    words = [line.split(b" ") for line in lines]
    return {int(it[0][1:]): int(it[6]) for it in words if len(it) == 7}


def lines_for(channel: Channel, world: World) -> Optional[List[bytes]]:
    """The lines that make the views again; None where they are too many."""
    found, size = [], 0
    for line in world.lines(offsets_in(channel.until_mark(b"bounds"))):
        size += len(line) + 1
        if size > channel.limit // SHARE:
            return None
        found.append(line)
    return [*found, b"frame"]


def take_over(old: Channel, new: Channel, lines: List[bytes]) -> str:
    """Carries the lines out in a new program. Returns in what it differs from the old one, or nothing."""
    try:
        for line in lines:
            # with the line that ends its replies
            replies = new.until_mark(line)
    except LineRefused as refused:
        return "the line that should make it is refused: %s" % refused
    if replies != [b"settled 0"]:
        return "its frame does not settle"
    for question in (b"bounds", b"digest"):
        if new.until_mark(question) != old.until_mark(question):
            return "its %s differs" % question.decode()
    return ""


def renewed(old: Channel, new: Channel, world: World) -> str:
    """Has a new program take over. Returns why it does not, or nothing; the one that goes on is the only one open."""
    why = "its lines are too many"
    try:
        lines = lines_for(old, world)
        if lines is not None:
            why = take_over(old, new, lines)
    except Failure as failure:
        why = str(failure)
    (new if why else old).close()
    return why

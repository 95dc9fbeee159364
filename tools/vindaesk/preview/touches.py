"""A program that is kept running after a script, for touches, frames and other lines."""
import re
from typing import Dict, List, Optional, Tuple

from ..scripts.script import Script
from ..session import LineRefused, Session
from ..views.placement import Placed
from . import drawing

# a view has handled the event itself, or took it away from those below it; a CANCEL is none
TAKEN = re.compile(r"v([1-9][0-9]*) (?:(?:touch|ask) (?!CANCEL).* yes|click)")
# the lines that a page may send
ALLOWED = re.compile(r"(?:down [0-9]{1,2} -?[0-9]{1,7} -?[0-9]{1,7}|move [0-9]{1,2} -?[0-9]{1,7} -?[0-9]{1,7}|up [0-9]{1,2}"
                     r"|cancel|frame)")


def taker(replies: List[str]) -> Optional[int]:
    """The number of the view that took an event: the last one of which the replies say that it has handled
    it, or has intercepted it."""
    found = [TAKEN.fullmatch(it) for it in replies]
    numbers = [int(it[1]) for it in found if it]
    return numbers[-1] if numbers else None


class Live:
    """The program after the lines of a script. Lines that are refused are passed over, as the program does."""

    def __init__(self, made: Script):
        self.session = Session(made.folder, made.ids.path if made.ids.is_there else None)
        self.made = made
        for line in made.lines:
            if line.strip() and not line.startswith(b"#"):
                self.carry_out(line.decode("utf-8", "surrogateescape"))

    def close(self) -> None:
        """Ends the program."""
        self.session.close()

    def carry_out(self, line: str) -> Tuple[List[str], bool]:
        """The replies of a line, and whether it was refused, which then is the only reply."""
        try:
            return self.session.line(line), False
        except LineRefused as refused:
            return ["refused %d %s%s" % (refused.number, refused.name, refused.detail)], True

    def sent(self, line: str) -> Dict[str, object]:
        """A line with its replies, and the view that took the touch."""
        replies, is_refused = self.carry_out(line)
        return {"line": line, "replies": replies, "refused": is_refused, "taken": taker(replies)}

    def views(self) -> List[Placed]:
        """The views as they are now."""
        return self.session.placed()

    def picture(self) -> Tuple[bytes, str]:
        """The picture of the last frame, as a PNG file with its name."""
        return drawing.packed(self.session.picture())

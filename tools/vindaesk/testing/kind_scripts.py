"""Cases that are scripts: NAME.script, which `run` carries out or the call in NAME.args, and NAME.stack for a stack of
windows. The picture is that of the last frame, or of a stack what its windows make together."""
import os
from typing import FrozenSet, List, Optional, Tuple

from ..common.failures import Failure, NOT_RUN
from ..pictures import frames
from ..pictures.png import Picture
from ..scripts import names, script
from ..scripts.replies import Refused
from ..scripts.script import Script, Window
from ..views import placement
from ..views.placement import Placed
from . import answers, calls, configurations
from .calls import Call, Limits
from .case import ARGUMENTS, ANSWER, Case, Written, stored
from .configurations import Configuration
from .kind import Inputs, Kind, named_in

SCRIPT, STACK = ".script", ".stack"
MAX_ARGUMENTS = 1 << 16


def words_of(stem: str, otherwise: str) -> List[str]:
    """The words of a case's call: those of NAME.args, if there is one. They are in one line, or one in each."""
    path = stem + ARGUMENTS
    if not os.path.lexists(path):
        return [otherwise]
    *lines, last = os.fsdecode(stored(path)[:MAX_ARGUMENTS]).split("\n")
    lines += [last] if last else []
    words = lines if len(lines) > 1 else " ".join(lines).split()
    if not words:
        raise Failure("%s has no words" % path, NOT_RUN)
    return words


def by_ids(words: List[str], folder: str) -> List[str]:
    """Words with ids in the place of names, as in `focus right @id/send`."""
    found = names.beside(folder).expanded(os.fsencode(" ".join(words)))
    if found.unknown:
        raise Failure(found.unknown[0].why)
    return os.fsdecode(found.text).split(" ")


def is_plain(text: bytes) -> bool:
    """Whether the program is given a script as it is: it has no name of an id, and no line of tools."""
    return not (b"include" in text or (b"@" in text and b"/" in text))


def made(case: Case) -> Script:
    """The script of a case in its configuration."""
    return configurations.read(case.source(), case.configuration)


def refused_first(refused: Refused, failure: Failure) -> Failure:
    """A failure with the first refused line too, if there is one."""
    first = refused.first()
    return Failure("%s; %s" % (failure, first), failure.status) if first else failure


class Scripts(Kind):
    """NAME.script."""

    ENDING = SCRIPT
    OTHERWISE = "run"

    def cases_of(self, path: str, given: Optional[List[Configuration]]) -> List[Case]:
        stem = path[: -len(self.ENDING)]
        if not os.path.isfile(path):
            raise Failure("%s is no file" % path, NOT_RUN)
        of = given
        if given is None:
            of = configurations.of_script(path) if self.is_single(stem) else []
        has_own = not of or (given is None and os.path.exists(stem + ANSWER))
        plain = [Case(stem, self.ENDING)] if has_own else []
        return plain + [Case(stem, self.ENDING, it) for it in of or ()]

    def is_single(self, stem: str) -> bool:
        """Whether a script is of one window, so that configurations can change it."""
        return words_of(stem, self.OTHERWISE)[0] != "stack"

    def written(self, case: Case, limits: Limits) -> Written:
        folder, words = case.folder(), words_of(case.stem, self.OTHERWISE)
        words = by_ids(words, folder) if any("/" in word for word in words) else words
        text = stored(case.source())
        if is_plain(text) and not case.configuration:
            plain, status = calls.answered(Call(words, text, folder), limits)
            # a state may have ids, and a list may have their names
            is_named = b"state " in plain
            kept = answers.of_run(plain, Script([], folder, (), names.beside(folder))) if is_named else plain
            return Written(kept, status, plain)
        of = made(case)
        plain, status = calls.answered(Call(words, script.joined(of.lines), folder), limits)
        return Written(answers.of_run(plain, of), status, plain)

    def inputs(self, case: Case, beside: FrozenSet[bytes]) -> Inputs:
        folder = case.folder()
        words = os.fsencode("\0".join(words_of(case.stem, self.OTHERWISE)))
        text, places = stored(case.source()), b""
        if not is_plain(text) or case.configuration:
            of = made(case)
            text = script.joined(of.lines)
            places = b"\n".join(os.fsencode("%s:%d" % place_of(it.file, it.number, folder)) for it in of.written)
        picture = b"picture" if case.configuration and case.configuration.picture else b""
        ids = os.path.join(folder, names.LIST)
        return Inputs((words, text, places, picture), [*named_in(text, folder, beside), ids])

    def picture(self, case: Case, size: Optional[Window]) -> Picture:
        of = made(case)
        refused = Refused(of, is_silent=True)
        try:
            if not self.is_single(case.stem):
                return composed(of, refused, size)
            *_, last = frames.frames(of, refused)
            return frames.picture_of(last)
        except Failure as failure:
            raise refused_first(refused, failure)

    def views(self, case: Case) -> List[Placed]:
        of = made(case)
        if not self.is_single(case.stem):
            return []
        try:
            return placement.views_of(of, Refused(of, is_silent=True))
        except Failure:
            return []


class Stacks(Scripts):
    """NAME.stack."""

    ENDING = STACK
    OTHERWISE = "stack"


def place_of(file: str, number: int, folder: str) -> Tuple[str, int]:
    """Where a line was written, by a path that is the same on each machine."""
    return os.path.relpath(os.path.abspath(file), folder), number


def composed(of: Script, refused: Refused, size: Optional[Window]) -> Picture:
    """What the windows of a stack make together in a picture of some size."""
    if size is None:
        raise Failure("a picture of a stack has the size of the stored one, and there is none; "
                      "`screenshot --stack WxH` makes one", NOT_RUN)
    return frames.composed(of, refused, size)

"""Runs the stored cases of folders, and of the folders in them, and compares what they write with their answers.

A case is a script NAME.script, or NAME.stack for a stack of windows; NAME.args has the words of another call over it,
as `focus left v2`, or of one without a script, as `lookup resources.arsc 7f010000`; and a layout file NAME.xml that has
an answer, and nothing else of its name, is printed by `dump`. The answer has to be that of NAME.answer, the status that
of NAME.status, or 0 without that file, and the picture of the last frame that of NAME.png where there is one. With
NAME.toml beside it, or vindaesk.toml in its folder, a script is tried in each configuration of that file, with
NAME@CONFIGURATION.answer and so on. A case without an answer fails.

Of each that fails a unified diff, or a sentence, is written as soon as it is known, and with --report a page with its
pictures. A case that passed is not run again as long as nothing has changed on which that depends: the program, the
tools, and the files. The last line is `N passed, M failed`. A terminal shows on standard error how many are done. The
status is 0 where all passed, 1 where one failed, and 2 where there was nothing to run. docs/FARMS.md says how several
machines share the cases.
"""
import argparse
import contextlib
import os
import tempfile
from typing import Dict, List, Optional, Sequence

from ..common import failures, files, messages, progress
from ..common.failures import Failure
from ..program import process
from ..testing import finding, kept, kinds, last_failures, parts, report, selection, suite
from ..testing.case import Case
from ..testing.configurations import Configuration
from ..testing.kept import Kept
from ..testing.parts import Part
from ..testing.suite import Suite
from ..testing.trials import Result, Task
from . import arguments, matrix
from .runall_output import Ending, text_of
from .uses import Purpose, Use

USE = Use(Purpose.CHECK, "vindaesk runall .", "runs stored scripts, and compares what they write with their answers")
FAMILIES = ("xunit1", "xunit2")


def shard(word: str) -> Part:
    """The part of I/N."""
    numbers = word.split("/")
    if len(numbers) != 2 or not all(it.isascii() and it.isdigit() and len(it) < 7 for it in numbers):
        raise argparse.ArgumentTypeError("'%s' is not of the form I/N" % word)
    place, of = map(int, numbers)
    if not 1 <= place <= of:
        raise argparse.ArgumentTypeError("'%s': I is 1 to N" % word)
    return Part(place - 1, of)


def reader() -> argparse.ArgumentParser:
    """The arguments."""
    found = arguments.parser(__doc__)
    found.add_argument("folders", metavar="DIR", nargs="*", help="a folder of scripts, or a single script")
    found.add_argument("-k", metavar="WORD", action="append", default=[], dest="words",
                       help="only cases whose name has this word; several -k: one of the words")
    found.add_argument("--failed", action="store_true", help="only cases that failed when they were run last")
    found.add_argument("--list", action="store_true", help="prints the names of the cases, and runs none")
    found.add_argument("--accept", metavar="CASE", nargs="*",
                       help="writes today's answers, statuses and pictures; of all cases that fail, or of these")
    found.add_argument("--accept-new", action="store_true", help="writes them for cases that have none yet")
    found.add_argument("--report", metavar="DIR", help="writes a page of what failed, with pictures")
    found.add_argument("--jobs", metavar="N", type=arguments.count(1, 512), default=suite.jobs_here(),
                       help="how many run at once; as many as there are processors")
    found.add_argument("--timeout", metavar="S", type=arguments.count(1, 86400), default=60,
                       help="seconds that one script may take; 60")
    add_farms(found)
    matrix.add(found)
    return found


def add_farms(to: argparse.ArgumentParser) -> None:
    """The arguments for several machines, and for many runs."""
    group = to.add_argument_group("farms", "what is kept, and what several machines share; docs/FARMS.md")
    group.add_argument("--cache", metavar="DIR", help="where it is kept what passed; a folder of the user's cache")
    group.add_argument("--no-cache", action="store_true", help="runs each case, and keeps nothing")
    group.add_argument("--shard", metavar="I/N", type=shard, help="only the I-th of N parts, I from 1")
    group.add_argument("--junit", metavar="OUT.xml", help="writes a report in the form of JUnit")
    group.add_argument("--junit-family", choices=FAMILIES, default=FAMILIES[0],
                       help="the names of pytest: xunit2 is strict, without the attribute file")
    group.add_argument("--merge", metavar="PART.xml", nargs="+", default=[],
                       help="runs nothing: makes one report of those of parts, and says what is in none")
    group.add_argument("--of", metavar="DIR", dest="whole", nargs="+", default=[],
                       help="with --merge: the folders whose cases the reports should have")


def given_by(words: Optional[Sequence[str]]) -> argparse.Namespace:
    """The arguments of a call. In `--accept DIR` there is no name."""
    parser = reader()
    given = arguments.parsed(parser, words)
    if not given.folders and given.accept and all(map(os.path.exists, given.accept)):
        given.folders, given.accept = given.accept, []
    if given.junit == "-":
        parser.error("--junit takes a file: standard output has the list of cases")
    if bool(given.merge) != bool(given.whole) or (given.merge and given.folders):
        parser.error("--merge PART.xml .. needs --of DIR .., and no other folders")
    if not given.folders and not given.merge:
        parser.error("the following arguments are required: DIR")
    return given


def found_in(folders: Sequence[str], of: Optional[List[Configuration]]) -> List[Case]:
    """The cases of folders."""
    found = finding.cases_of_all(folders, of)
    if not found:
        raise Failure("there is no script in %s" % " ".join(folders), failures.NOT_RUN)
    for path in finding.orphans(found) if of is None else ():
        messages.say("%s is of no configuration of its script" % path)
    return found


def chosen(given: argparse.Namespace, found: List[Case], only: str) -> List[Case]:
    """The cases that are to be run. A part may be empty."""
    wanted = [case for case in found if selection.has_word(case, given.words)]
    if not wanted:
        raise Failure("no name of %d cases has %s" % (len(found), " or ".join(given.words)), failures.NOT_RUN)
    if given.accept:
        wanted = selection.meant(wanted, given.accept)
    if given.failed:
        wanted = last_failures.among(wanted)
        if not wanted:
            messages.say("none of these cases failed when it was run last")
    if only:
        wanted = [case for case in wanted if selection.is_meant(case, only) or only in case.name()]
    return parts.of_part(wanted, given.shard)


def with_variables(given: argparse.Namespace) -> parts.Asked:
    """Adds to the arguments what the variables of Bazel's test protocol say; a call that says otherwise is right."""
    asked = parts.by_variables()
    given.shard = given.shard or asked.part or parts.WHOLE
    given.junit = given.junit or asked.report or None
    given.notes_failures = not asked.folder
    if asked.folder:
        tempfile.tempdir = asked.folder
        given.no_cache = given.no_cache or not given.cache
    return asked


def kept_for(given: argparse.Namespace) -> Optional[Kept]:
    """Where it is kept what passed; without an option, where that can be."""
    if given.no_cache:
        return None
    found = Kept(given.cache or kept.default_folder())
    try:
        found.prepare()
    except Failure as failure:
        if given.cache:
            raise
        messages.say("nothing is kept: %s" % failure)
        return None
    return found


def tasks_of(given: argparse.Namespace, mine: List[Case]) -> List[Task]:
    """What is to be done."""
    where: Dict[Case, str] = report.places(mine, given.report) if given.report else {}
    accepts_all = given.accept is not None
    return [
        Task(case, given.timeout, accepts_all or (given.accept_new and kinds.is_new(case)), where.get(case, ""))
        for case in mine
    ]


class Texts:
    """Writes how cases went: as they end; where answers are accepted in the order of the cases, so that two calls print
    the same."""

    def __init__(self, whole: Suite, is_ordered: bool, line: progress.Line):
        self.line = line
        self.places = {task.case: place for place, task in enumerate(whole.tasks)} if is_ordered else {}
        self.waiting: Dict[int, str] = {}
        self.next = 0

    def take(self, result: Result) -> None:
        """Writes a result, or has it wait for those before it."""
        if not self.places:
            self.write(text_of(result))
            return
        self.waiting[self.places[result.case]] = text_of(result)
        while self.next in self.waiting:
            self.write(self.waiting.pop(self.next))
            self.next += 1

    def end(self) -> None:
        """Writes those that wait still, since a run was ended."""
        for place in sorted(self.waiting):
            self.write(self.waiting[place])

    def write(self, text: str) -> None:
        """Writes a text in the place of the line of progress."""
        if text:
            self.line.clear()
            print(text, end="", flush=True)


def run(given: argparse.Namespace, whole: Suite) -> None:
    """Runs the cases, and writes how they go."""
    failed, line, count = 0, progress.Line(), len(whole.tasks)
    texts = Texts(whole, given.accept is not None or given.accept_new, line)
    line.show(progress.bar(0, count))
    with contextlib.closing(whole.run(given.jobs)) as results, contextlib.ExitStack() as stack:
        stack.callback(texts.end)
        for done, result in enumerate(results, 1):
            failed += bool(result.problem)
            texts.take(result)
            line.show(progress.bar(done, count) + (", %d failed" % failed if failed else ""))
    line.clear()


def run_all(given: argparse.Namespace, whole: Suite) -> int:
    """Runs the cases. Whatever ends that, all is written that is known then."""
    at_end = Ending(given, whole)
    with contextlib.ExitStack() as stack:
        # the last one is called first
        stack.callback(at_end.write_sum)
        if given.junit:
            stack.callback(at_end.attempt, at_end.write_junit)
        if given.report:
            stack.callback(at_end.attempt, at_end.write_page)
        stack.callback(at_end.keep)
        run(given, whole)
    return at_end.status or (failures.WRONG if any(it.problem for it in whole.results()) else 0)


def main(words: Optional[Sequence[str]] = None) -> int:
    given = given_by(words)
    arguments.write_any_text()
    if given.merge:
        from .runall_merge import merge

        return merge(given, found_in(given.whole, matrix.configurations_of(given)))
    asked = with_variables(given)
    mine = chosen(given, found_in(given.folders, matrix.configurations_of(given)), asked.only)
    if given.list:
        print("".join(messages.printable(case.name()) + "\n" for case in mine), end="")
        return 0
    process.path()
    if given.report:
        report.prepare(given.report)
    if given.junit:
        files.check_place(given.junit)
    return run_all(given, Suite(tasks_of(given, mine), kept_for(given)))

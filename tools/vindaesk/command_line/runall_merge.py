"""`runall --merge`: one report of those of several parts, and what is in none of them."""
import argparse
import time
from typing import List

from ..common import failures, files, messages, places
from ..testing import junit, merging
from ..testing.case import Case
from ..testing.merging import Merged
from .runall_output import print_sum

# how many cases that no report has are listed one by one
MOST_LISTED = 20


def show(found: Merged) -> None:
    """Writes what is wrong."""
    for sentence in found.wrong:
        messages.say(sentence)
    for names, what in ((found.twice, "in more than one report"), (found.others, "in a report, and no case")):
        if names:
            messages.say("%d cases are %s, the first is %s" % (len(names), what, names[0]))
    for case in found.missing[:MOST_LISTED]:
        print("failed: %s\n%s" % (messages.printable(case.name()), merging.NOWHERE))
    if found.missing[MOST_LISTED:]:
        print("and %d more cases are in no report" % len(found.missing[MOST_LISTED:]))


def merge(given: argparse.Namespace, cases: List[Case]) -> int:
    """Makes one report of several. Returns the status."""
    found = merging.merged(given.merge, cases)
    show(found)
    if given.junit:
        about = junit.About(time.time(), merging.seconds(found), {"vindaesk.version": places.version()})
        files.replace(given.junit, junit.suite_of(found.testcases, about))
    failed = sum(not merging.is_passed(it) for it in found.testcases)
    print_sum(len(found.testcases), failed)
    return failures.WRONG if failed or found.wrong else 0

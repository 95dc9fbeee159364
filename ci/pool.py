#!/usr/bin/env python3
"""Runs the checks side by side without pytest, in processes of the standard library: `ci/pool.py JOBS SLOWEST WORD..`.
`ci/checks` calls it."""
import multiprocessing
import sys
import traceback
from concurrent.futures import ProcessPoolExecutor, as_completed
from concurrent.futures.process import BrokenProcessPool
from typing import Dict, Iterator, List

import collection
from results import Outcome, Report, Result, tried
from running import Check


# the checks by their names, which copies of this process have too: functions in functions cannot be sent to them
CHECKS: Dict[str, Check] = {}


def tried_by_name(name: str) -> Result:
    """The end of a check."""
    return tried(name, CHECKS[name])


def one_after_the_other(checks: Dict[str, Check]) -> Iterator[Result]:
    """The ends of the checks, in this process."""
    for name, check in checks.items():
        yield tried(name, check)


def side_by_side(checks: Dict[str, Check], jobs: int) -> Iterator[Result]:
    """The ends of the checks, as they come, in this number of processes: copies of this one, so that they have the
    checks already."""
    CHECKS.update(checks)
    with ProcessPoolExecutor(jobs, multiprocessing.get_context("fork")) as pool:
        started = {pool.submit(tried_by_name, name): name for name in collection.slowest_first(list(checks))}
        try:
            for ended in as_completed(started):
                try:
                    yield ended.result()
                except BrokenProcessPool:
                    yield Result(started[ended], Outcome.FAILED, "a process of the checks was ended meanwhile", 0)
        finally:
            # without an interrupt none is left
            for waiting in started:
                waiting.cancel()


def main(words: List[str]) -> int:
    jobs, slowest = map(int, words[:2])
    checks = collection.found(words[2:])
    report = Report()
    report.begin(len(checks))
    try:
        for result in side_by_side(checks, jobs) if jobs > 1 else one_after_the_other(checks):
            report.add(result)
    finally:
        report.line.clear()
    return report.end(slowest)


def status_of(words: List[str]) -> int:
    """The status of this process: 0 or 1 once the sums are printed, and otherwise another one."""
    try:
        return main(words)
    except KeyboardInterrupt:
        return 130
    except Exception:
        traceback.print_exc()
        return 3


if __name__ == "__main__":
    sys.exit(status_of(sys.argv[1:]))

"""All cases of a run, with how they went so far. Nothing that was begun is lost: what has no result was not run."""
import contextlib
import os
from typing import Any, Callable, Dict, Generator, List, Optional, Sequence

from ..common.pool import Lost, Pool
from . import trials
from .kept import Kept
from .keys import Keys
from .problems import Problem, Sort
from .trials import Result, Task

# a case is run, drawn, and where it fails both again; this long it may take in all, in its seconds and some more
RUNS, MORE_SECONDS = 5, 10
NOT_RUN = Problem(Sort.NOT_RUN, "it was not run: the run was ended before")


class Suite:
    """The tasks of a run, and their results by their places."""

    def __init__(self, tasks: Sequence[Task], kept: Optional[Kept] = None):
        self.tasks = tasks
        self.kept = kept
        self.found: Dict[int, Result] = {}

    def act(self) -> Callable[[Task], Result]:
        """What is done with a task."""
        if self.kept is None or not self.tasks:
            return trials.tried
        keys, kept = Keys(self.tasks[0].seconds), self.kept
        return lambda task: trials.recalled(task, keys, kept)

    def run(self, jobs: int) -> Generator[Result, None, None]:
        """Runs the cases, some at once. Each result comes as soon as it is known."""
        if not self.tasks:
            return
        pool = Pool(self.act(), min(jobs, len(self.tasks)), RUNS * self.tasks[0].seconds + MORE_SECONDS)
        with contextlib.closing(pool.results(self.tasks)) as results:
            for place, found in results:
                self.found[place] = self.result_of(place, found)
                yield self.found[place]

    def result_of(self, place: int, found: Any) -> Result:
        """The result of a task, also where it was given up."""
        if isinstance(found, Lost):
            return Result(self.tasks[place].case, Problem(Sort.RUNNER, found.why))
        assert isinstance(found, Result)
        return found

    def results(self) -> List[Result]:
        """The results of all cases, in their order, also of those that were not run."""
        return [self.found.get(place, Result(task.case, NOT_RUN)) for place, task in enumerate(self.tasks)]


def jobs_here() -> int:
    """How many processors there are for this process."""
    return len(os.sched_getaffinity(0))

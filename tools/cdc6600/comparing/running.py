"""Takes an emulator through many decks, some side by side."""

import sys
from concurrent.futures import FIRST_EXCEPTION, ThreadPoolExecutor, wait
from pathlib import Path
from typing import TYPE_CHECKING, Sequence

from .emulator import Emulator
from .faults import IS_OVER, Failure
from .finding import Comparison, Found
from .proved import Proved
from .reports import Report
from .results import Result, differing, slow
from .steps import points_every, usual_points

if TYPE_CHECKING:
    from .suites import Case

# The seconds after which the line of progress is written again.
PAUSE = 0.5


class Progress:
    """One line on standard error that is written again and again, if that is a terminal."""

    def __init__(self) -> None:
        self.is_shown = sys.stderr.isatty()

    def show(self, text: str) -> None:
        """Writes the line over the one before."""
        if self.is_shown:
            print(f"\r{text}\x1b[K", end="", file=sys.stderr, flush=True)


class Suite:
    """An emulator that is taken through cases, each with its files in a folder. Dumps are compared after each `every`
    steps, or after the usual numbers of steps if that is None. At most `jobs` cases are taken side by side, or if that
    is None a few more than there are processors."""

    def __init__(self, emulator: Emulator, folder: Path, every: int | None = None, jobs: int | None = None) -> None:
        self.emulator, self.folder, self.every, self.jobs, self.proved = emulator, folder, every, jobs, Proved()

    def points(self, whole: int) -> list[int]:
        """The numbers of steps after which a log of `whole` steps is compared."""
        return points_every(whole, self.every) if self.every else usual_points(whole)

    def result(self, case: "Case") -> Result:
        """What comes of a case."""
        comparison = Comparison(case.replayed(self.proved, self.folder), self.emulator)
        try:
            return self.judged(comparison)
        finally:
            comparison.replayed.file.unlink()

    def judged(self, comparison: Comparison) -> Result:
        """What comes of a comparison. A step is looked for only if the emulator ends in time."""
        first = comparison.first(self.points(len(comparison.steps)))
        found = first and (first[1] if first[1].outcome.is_slow else comparison.halve(*first))
        if not found:
            return Result(comparison.replayed.given.name, len(comparison.steps))
        return slow(comparison, found) if found.outcome.is_slow else differing(Report(comparison, found))

    def check(self, case: "Case") -> None:
        """Looks whether the emulator prints a dump of the booted machine of a case, before all others.

        Raises Failure where it doesn't."""
        comparison = Comparison(case.replayed(self.proved, self.folder), self.emulator)
        found = Found(0, comparison.outcome(0))
        comparison.replayed.file.unlink()
        if not found.outcome.is_same and found.outcome.failure:
            raise Failure(Report(comparison, found).line)

    def results(self, cases: Sequence["Case"]) -> list[Result]:
        """What comes of each case, in their order. The last ones are begun first, since drawn decks take longest."""
        pool, progress = ThreadPoolExecutor(self.jobs), Progress()
        try:
            works = [pool.submit(self.result, case) for case in reversed(cases)][::-1]
            waiting = set(works)
            while waiting:
                ended, waiting = wait(waiting, PAUSE, FIRST_EXCEPTION)
                progress.show(f"{len(works) - len(waiting)} of {len(works)} decks, {self.emulator.calls} calls")
                for work in ended:
                    work.result()
            return [work.result() for work in works]
        except BaseException:
            IS_OVER.set()
            raise
        finally:
            pool.shutdown(cancel_futures=True)
            progress.show("")

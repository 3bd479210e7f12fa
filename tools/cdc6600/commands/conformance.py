"""Takes an emulator of the CDC 6600 through all decks of decks/, and through drawn ones, and compares its dumps with
those of `cdc6600 replay`.

COMMAND is called as by tools/compare; docs/use/emulators.md says what it has to read and print. The decks of decks/run
have their stored logs, and the sessions of decks/sessions those of their answers, with peripheral accesses. The drawn
decks are those that tools/random-deck prints for the seeds 1 to N, or from another seed on, with the log that `cdc6600
run` prints.

Dumps are compared along the way too: after each step of logs of up to 600 steps, after 64 numbers of steps and each of
the last 8 steps of longer ones, and after 1, 2, 4, 8 .. steps of those of more than 10,000. With --every N they are
compared after each N steps and after the whole log.

Decks that differ are grouped by the instruction that is wrong first. Each group has a line with the number of its decks
and the step of its first deck; `tools/compare --every 1 COMMAND DECK LOG` tells more. An emulator that doesn't end in
time is `too slow` on that deck, which isn't judged then. The last line has the counts.

With --coverage no emulator is called. For each instruction of docs/use/instructions.md, and for each of its edges, the
tool prints how many of the decks show it. docs/use/emulators.md says what an edge is.

The status is 0 if nothing differs, 1 if something does or COMMAND prints no dump at all, 2 for bad input, and 3 if
nothing differs but COMMAND is too slow on some deck. CDC6600 may name the program to ask.
"""

import tempfile
import time
from argparse import Namespace
from pathlib import Path

from cdc6600.comparing.arguments import MORE, SECONDS, count, jobs, number, seconds, seed, slope
from cdc6600.comparing.coverage import Coverage, shown_by
from cdc6600.comparing.emulator import Emulator
from cdc6600.comparing.faults import Failure, ended
from cdc6600.comparing.proved import Proved
from cdc6600.comparing.results import SOME_DIFFER, Results
from cdc6600.comparing.running import Progress, Suite
from cdc6600.comparing.suites import DrawnCase, StoredCase, drawn_cases, stored_cases
from cdc6600.shared.ending import Parser, printable, tell

RANDOM = 20


def arguments() -> Namespace:
    parser = Parser(__doc__)
    add = parser.add_argument
    add("--random", metavar="N", type=number, default=RANDOM, help=f"how many drawn decks, or {RANDOM}")
    add("--first", metavar="SEED", type=seed, default=1, help="the seed of the first drawn deck, or 1")
    add("--every", metavar="N", type=count, help="compare after each N steps instead of the usual ones")
    add("--seconds", metavar="S", type=seconds, default=SECONDS, help=f"how long a call may take, or {SECONDS}")
    add("--more", metavar="S", type=slope, default=MORE, help=f"how much longer for each million steps, or {MORE}")
    add("--jobs", metavar="N", type=jobs, help="take at most N decks side by side")
    add("--all", action="store_true", help="print a line for each deck that differs, not for each group")
    add("--json", action="store_true", help="print the whole result as JSON instead of lines")
    add("--junit", metavar="FILE", help="write the result to FILE too, as the XML of JUnit")
    add("--coverage", action="store_true", help="print how many decks show each instruction and each of its edges")
    add("command", metavar="COMMAND", nargs="?", help="the emulator's command, its words in one argument")
    given = parser.parse_args()
    if given.coverage and (given.command is not None or given.junit is not None):
        parser.error(f"argument --coverage: not allowed with {'--junit' if given.command is None else 'COMMAND'}")
    if not given.coverage and given.command is None:
        parser.error("the following arguments are required: COMMAND")
    return given


def cases_of(given: Namespace) -> tuple[list[StoredCase], list[DrawnCase]]:
    """The stored decks and the drawn ones that the arguments ask for."""
    return stored_cases(), drawn_cases(range(given.first, given.first + given.random))


def results_of(given: Namespace, folder: Path) -> Results:
    """What comes of the emulator on all decks.

    Raises Failure where it prints no dump of a booted machine."""
    begun, emulator = time.monotonic(), Emulator(given.command, given.seconds, given.more)
    stored, drawn = cases_of(given)
    suite = Suite(emulator, folder, given.every, given.jobs)
    suite.check(stored[0])
    results = suite.results([*stored, *drawn])
    return Results(results, len(stored), emulator.calls, time.monotonic() - begun)


def print_coverage(given: Namespace) -> None:
    """Prints how many decks show each instruction and each edge."""
    stored, drawn = cases_of(given)
    cases, proved, progress, shown = [*stored, *drawn], Proved(), Progress(), []
    for at, case in enumerate(cases, 1):
        progress.show(f"deck {at} of {len(cases)}")
        shown.append(shown_by(case, proved))
    progress.show("")
    coverage = Coverage(shown)
    print(coverage.json if given.json else "\n".join(coverage.lines))


def work() -> int:
    given = arguments()
    if given.coverage:
        print_coverage(given)
        return 0
    if given.junit is not None:
        # A file that can't be written is told before the work.
        open(given.junit, "ab").close()
    with tempfile.TemporaryDirectory() as folder:
        try:
            results = results_of(given, Path(folder))
        except Failure as failure:
            tell("tools/conformance", failure)
            return SOME_DIFFER
    if given.junit is not None:
        Path(given.junit).write_bytes(results.as_junit(given.command))
    print(results.as_json(given.command) if given.json else "\n".join(map(printable, results.lines(given.all))))
    return results.status


def main() -> int:
    return ended("tools/conformance", work)

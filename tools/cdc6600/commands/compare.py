"""Compares an emulator of the CDC 6600 with `cdc6600 replay` on a deck, and finds the instruction that it gets wrong.

COMMAND is called with a log as its last argument, reads a deck on standard input and prints the dump, as `cdc6600
replay LOG` does; docs/use/emulators.md says what it has to read and print. The log is that of `cdc6600 run` where none
is given. The dumps show all registers and the whole memory.

First the dumps after the whole log are compared. Where they differ, the beginnings of the log are halved: exchanges,
instructions and peripheral accesses are its steps. What is found is a step before which the dumps agree and after which
they differ: all that a dump shows was right, and after this one step it isn't. It is the first such step of all where
no earlier difference was covered up again. With --every 1 the dumps after each step are compared from the first one on:
then it is the first, and a difference that is covered up before the log's end is found too.

With --save no file is written over that has another text.

The status is 0 where nothing differs, 1 where something does or the command gives no dump, 2 for bad input. CDC6600 may
name the program to ask.
"""

import tempfile
from argparse import Namespace
from pathlib import Path

from cdc6600.comparing.arguments import MORE, SECONDS, bytes_of, count, deck_of, seconds, slope
from cdc6600.comparing.emulator import Emulator
from cdc6600.comparing.faults import BadInput, ended
from cdc6600.comparing.finding import Comparison, Replayed
from cdc6600.comparing.proved import Given, Proved
from cdc6600.comparing.reports import Report
from cdc6600.comparing.steps import points_every
from cdc6600.shared.ending import Parser, printable, tell
from cdc6600.shared.writing import why_not_written


def arguments() -> Namespace:
    parser = Parser(__doc__)
    parser.add_argument("--every", metavar="N", type=count, help="compare after each N steps too, not only at the end")
    parser.add_argument("--seconds", metavar="S", type=seconds, default=SECONDS, help="how long a call may take")
    parser.add_argument("--more", metavar="S", type=slope, default=MORE, help="how much longer for each million steps")
    parser.add_argument("--save", metavar="FILE", help="write the deck to FILE as COMMAND is given it")
    parser.add_argument("command", metavar="COMMAND", help="the emulator's command, its words in one argument")
    parser.add_argument("deck", metavar="DECK", help="a file with a deck, or a source program NAME.source")
    parser.add_argument("log", metavar="LOG", nargs="?", help="the log to go through")
    return parser.parse_args()


def compared(given: Namespace, folder: str) -> Comparison:
    proved, text = Proved(), deck_of(given.deck)
    emulator, deck = Emulator(given.command, given.seconds, given.more), Given(proved, given.deck, text)
    why_not = given.save and why_not_written(given.save, lambda file: bytes_of(file) == deck.text)
    if why_not:
        raise BadInput(f"{given.save}: {why_not}")
    log = proved.log(text, given.deck) if given.log is None else given.log
    return Comparison(Replayed(proved, deck, log, Path(given.save or f"{folder}/deck")), emulator)


def work() -> int:
    given = arguments()
    with tempfile.TemporaryDirectory() as folder:
        comparison = compared(given, folder)
        found = comparison.find(points_every(len(comparison.steps), given.every))
        report = Report(comparison, found) if found else None
    if not report:
        often = "each step" if given.every == 1 else f"every {given.every} steps"
        on_the_way = f", and after {often} on the way" if given.every else ""
        name = printable(given.deck)
        print(f"{name}: the dumps agree after all {len(comparison.steps)} steps of the log{on_the_way}")
        return 0
    if report.found.outcome.failure:
        tell("tools/compare", f"{given.deck}: {report.line}")
    else:
        print("\n".join(map(printable, report.lines)))
    return 1


def main() -> int:
    return ended("tools/compare", work)

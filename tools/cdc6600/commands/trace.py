"""Prints a line for each step of a log on a deck: what the step is, what it reads and what it writes. The trace of an
emulator in the same form can be compared with it by `diff`.

Each line has, from left to right:

  the step's number in the log, from 1
  I for an instruction, E for an exchange, R and W for a peripheral processor's read and write, as in the log
  P and the parcel of an instruction, else two dashes
  the address in memory: of the instruction's word, of the package, or of the word that is read or written
  the text of the instruction as `cdc6600 list` has it, or `exchange`, `read` or `write`
  the operands, with the values before the step
  -> and the results, with the values after the step

All is octal but the step's number. docs/use/emulators.md says which operands and results a line has. With --json each
line is a JSON object with the same fields.

Without LOG it is the log that `cdc6600 run --sequential` prints for the deck. Without --first, --last or --steps the
first 10,000 steps are printed, and a line on standard error says if there are more.

The status is 0, or 2 for bad input. CDC6600 may name the program to ask.
"""

import argparse
import re

from cdc6600.comparing.arguments import STANDARD_INPUT, deck_of, number, standard_input
from cdc6600.comparing.faults import BadInput, ended
from cdc6600.comparing.proved import Given, Proved
from cdc6600.comparing.tracing import Trace
from cdc6600.limits import MOST_INSTRUCTIONS
from cdc6600.shared.ending import Parser, tell

# How many steps are printed where nothing is said.
MOST = 10_000
# A log has up to 12,000,000 steps.
DIGITS, STEPS = 8, re.compile(r"([0-9]{1,8})(?:-([0-9]{1,8})?)?")


def count(word: str) -> int:
    if not number(word, DIGITS):
        raise argparse.ArgumentTypeError(f"{word} is no number above 0")
    return int(word)


def budget(word: str) -> int:
    if not 0 < number(word, DIGITS) <= MOST_INSTRUCTIONS:
        raise argparse.ArgumentTypeError(f"{word} is no number from 1 to {MOST_INSTRUCTIONS}")
    return int(word)


def span(word: str) -> tuple[int, int]:
    """The first and the last step of `A-B`; `A-` has no last one, and `A` is one step."""
    found = STEPS.fullmatch(word) if word.isascii() else None
    first, last = (int(found[1]), int(found[2] or 10**DIGITS if "-" in word else found[1])) if found else (0, 0)
    if not 0 < first <= last:
        raise argparse.ArgumentTypeError(f"{word} is no range of steps, as 3-7")
    return first, last


def arguments() -> argparse.Namespace:
    parser = Parser(__doc__)
    parser.add_argument("--json", action="store_true", help="print a JSON object a line")
    parser.add_argument("--budget", metavar="N", type=budget, help="run the deck for at most N instructions")
    limits = parser.add_mutually_exclusive_group()
    limits.add_argument("--first", metavar="N", type=count, help="print the first N steps")
    limits.add_argument("--last", metavar="N", type=count, help="print the last N steps")
    limits.add_argument("--steps", metavar="A-B", type=span, help="print the steps A to B; A- up to the last one")
    parser.add_argument("deck", metavar="DECK",
                        help="a file with a deck, a source program NAME.source, or - for a deck on standard input")
    parser.add_argument("log", metavar="LOG", nargs="?", help="the log to go through")
    given = parser.parse_args()
    if given.budget and given.log is not None:
        parser.error("argument --budget: not allowed with LOG")
    return given


def traced(given: argparse.Namespace, name: str) -> Trace:
    proved = Proved()
    text = standard_input() if given.deck == STANDARD_INPUT else deck_of(given.deck)
    deck, options = Given(proved, name, text), [f"--budget={given.budget}"] if given.budget else []
    log = proved.log(text, name, "--sequential", *options) if given.log is None else given.log
    return Trace(proved, deck, log)


def chosen(given: argparse.Namespace, total: int) -> tuple[int, int]:
    """The first and the last step to print, of so many."""
    if given.steps and given.steps[0] > total:
        raise BadInput(f"step {given.steps[0]}: the log has {total} steps")
    first, last = given.steps or (1, given.first or (total if given.last else MOST))
    return max(first, total - given.last + 1) if given.last else first, min(last, total)


def work() -> int:
    given = arguments()
    name = "standard input" if given.deck == STANDARD_INPUT else given.deck
    trace = traced(given, name)
    total = len(trace.steps)
    first, last = chosen(given, total)
    for line in trace.lines(first, last):
        print(line.json if given.json else line, flush=True)
    if not (given.first or given.last or given.steps) and last < total:
        note = f"the first {last} of {total} steps are printed; --steps A-B prints others"
        tell("tools/trace", f"{name}: {note}")
    return 0


def main() -> int:
    return ended("tools/trace", work)

"""Writes a session for a deck: the deck's lines, and after them a schedule that takes the deck's program to its end.

The machine is asked for each event by `cdc6600 events`, so it refuses no line of the schedule. The requests of the deck
are made as `run --sequential` makes them. The policy says in which order events are made:

  timed           units, hopper and banks take their minor cycles by the file of times, and each event is made as soon
                  as its part is ready and the machine accepts it
  greedy          each part makes its next event as soon as the machine accepts it, whatever it takes
  program-order   each instruction is carried out to its end before the next one is issued

With --summary the cycles, the instructions per cycle, with the first exchange and without it, and the waits by their
causes are printed instead. They are those of the file of times; nothing is said of a real machine. docs/use/tools.md
explains them.

The status is 0, or 1 for bad input, or 2 if the command line is refused. CDC6600 may name the program to ask.
"""

import argparse

from cdc6600.comparing.arguments import number
from cdc6600.drawing.following import Fault, Session, text_of
from cdc6600.limits import DEFAULT_BUDGET
from cdc6600.shared.ending import Parser, ended
from cdc6600.shared.program import Program
from cdc6600.timing.scheduling import POLICIES, TIMED, Schedule
from cdc6600.timing.summary import put, summary
from cdc6600.timing.times import read_times
from cdc6600.timing.waits import account

# How many instructions are issued at most where nothing is said.
BUDGET = 1000


def budget(word: str) -> int:
    if not 0 < number(word, 8) <= DEFAULT_BUDGET:
        raise argparse.ArgumentTypeError(f"{word} is no number from 1 to {DEFAULT_BUDGET}")
    return int(word)


def arguments() -> argparse.Namespace:
    parser = Parser(__doc__)
    parser.add_argument("--policy", choices=POLICIES, default=TIMED, help=f"the order of events, {TIMED} by default")
    parser.add_argument("--times", metavar="FILE",
                        help="the file of times, tools/cdc6600/timing/thornton.times by default")
    parser.add_argument("--budget", metavar="N", type=budget, default=BUDGET,
                        help=f"issue at most N instructions, {BUDGET} by default")
    parser.add_argument("--summary", action="store_true", help="print the cycles and the waits instead of the session")
    parser.add_argument("deck", metavar="DECK",
                        help="a file with a deck, whose schedule isn't read, or a source program NAME.source")
    return parser.parse_args()


def work() -> int:
    given = arguments()
    session, times = Session(given.deck, text_of(given.deck)), read_times(given.times)
    schedule = Schedule(Program(), session, times, given.policy, given.budget)
    schedule.make()
    put(summary(schedule, account(schedule.followed(), times)) if given.summary else schedule.text())
    return 0


def main() -> int:
    return ended("tools/schedule", work, Fault)

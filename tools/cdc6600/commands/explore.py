"""Goes through every order of events of a small program: how many states and schedules there are, which dump each ends
with, and how many minor cycles the shortest and the longest schedule take.

The events are those of a program's normal course: the exchange with the package of the deck's start line, issue, read,
finish, store, accept, return and bank. The deck's `ask` lines aren't used. A schedule ends where no event is accepted
any more. A machine of the library for C says which events are accepted. Then the program makes these events in sessions
of `cdc6600 events`, and has to refuse all others. A loop has many states: --budget 12 looks at its first twelve
instructions. At a terminal the number of states so far is shown.

This is a look at one program. It proves nothing of another one: the theorem in README.md does. docs/use/tools.md
explains the output.

The status is 0, or 1 for bad input, or 2 if the command line is refused. CDC6600 may name the program to ask.
"""

import argparse
import sys
from pathlib import Path

from cdc6600.comparing.arguments import number
from cdc6600.drawing.following import Fault, Session, text_of
from cdc6600.shared.ending import Parser, ended, printable, set_errors
from cdc6600.shared.program import Program
from cdc6600.timing.confirming import Confirmation
from cdc6600.timing.exploring import Exploration
from cdc6600.timing.graph import Graph
from cdc6600.timing.scheduling import check_deck
from cdc6600.timing.summary import put, report
from cdc6600.timing.times import read_times

STATES, SESSIONS, BUDGET, MOST = 20_000, 500, 1000, 1_000_000


def count(word: str) -> int:
    if not 0 < number(word, 8) <= MOST:
        raise argparse.ArgumentTypeError(f"{word} is no number from 1 to {MOST}")
    return int(word)


def arguments() -> argparse.Namespace:
    parser = Parser(__doc__)
    form = parser.add_mutually_exclusive_group()
    form.add_argument("--html", action="store_true", help="write a page with the graph of states")
    form.add_argument("--session", choices=("shortest", "longest"), help="print a schedule of this kind as a session")
    parser.add_argument("--times", metavar="FILE",
                        help="the file of times, tools/cdc6600/timing/thornton.times by default")
    parser.add_argument("--budget", metavar="N", type=count, default=BUDGET,
                        help=f"issue at most N instructions, {BUDGET} by default")
    parser.add_argument("--states", metavar="N", type=count, default=STATES,
                        help=f"give up at more than N states, {STATES} by default")
    parser.add_argument("--sessions", metavar="N", type=count, default=SESSIONS,
                        help=f"have the machine make at most N sessions, {SESSIONS} by default")
    parser.add_argument("deck", metavar="DECK",
                        help="a file with a deck, whose schedule isn't read, or a source program NAME.source")
    return parser.parse_args()


def work() -> int:
    given, program = arguments(), Program()
    session, times = Session(given.deck, text_of(given.deck)), read_times(given.times)
    check_deck(program, session)
    exploration = Exploration(program, session, times, given.budget, given.states)
    if given.session:
        moment = exploration.extremes()[given.session == "longest"]
        deck = session.text.split("\n")[: session.deck_end]
        put("".join(f"{line}\n" for line in [*deck, *moment.events, "end"]))
        return 0
    lines = report(exploration, Confirmation(program, session, exploration, given.sessions).run())
    if given.html:
        set_errors(sys.stdout, "replace", "utf-8")
        put(Graph(exploration, printable(Path(given.deck).stem), lines).text())
    else:
        put("".join(f"{line}\n" for line in lines))
    return 0


def main() -> int:
    return ended("tools/explore", work, Fault)

"""Prints what `events` answers for a session, each answer beside its line of the schedule.

With --source it prints the line of the source program after the answer to each issue. With --values it prints the
values of all registers and of the words that the deck shows after each event, in octal and as a number. A star stands
before each value that the event has changed. EVENTS chooses lines by the numbers that tools/timeline has: 3-11,14 are
the lines 3 to 11 and 14. The last line has the dump.

The status is that of `events`, or 1 for bad input, or 2 if the command line is refused. CDC6600 may name the program to
ask.
"""

import argparse
import itertools
import re
import sys
from pathlib import Path
from typing import Sequence

from cdc6600.asking.states import State
from cdc6600.drawing.following import Fault, Following, Session, text_of
from cdc6600.drawing.listing import listing_of
from cdc6600.drawing.retracing import retraced
from cdc6600.drawing.values import value_lines
from cdc6600.shared.decks import session
from cdc6600.shared.ending import Parser, ended, printable, set_errors
from cdc6600.shared.program import Program


def events(text: str) -> list[range]:
    """The numbers that a list of numbers and spans has, from 1 on."""
    if not re.fullmatch(r"[1-9]\d{0,8}(-[1-9]\d{0,8})?(,[1-9]\d{0,8}(-[1-9]\d{0,8})?)*", text):
        raise argparse.ArgumentTypeError(f"{text} has another form than 3-11,14")
    spans = [part.partition("-") for part in text.split(",")]
    return [range(int(first), int(last or first) + 1) for first, _, last in spans]


def arguments() -> argparse.Namespace:
    parser = Parser(__doc__)
    parser.add_argument("--values", action="store_true", help="print the values after each event")
    parser.add_argument("--source", metavar="FILE", help="the source program of the deck, whose lines are printed too")
    parser.add_argument("name", metavar="SESSION",
                        help="a session of decks/sessions without the ending .session, or a file with a session")
    parser.add_argument("events", metavar="EVENTS", nargs="?", type=events, help="print these lines alone: 3-11,14")
    return parser.parse_args()


def session_of(name: str) -> Session:
    """The session of decks/sessions that has this name, or else the one in the file.

    Raises Fault if there is neither."""
    stored = session(name)
    if stored.file.is_file():
        return Session(str(stored), text_of(stored.file))
    if not Path(name).exists():
        raise Fault(name, "no such file, and no session of decks/sessions")
    return Session(name, text_of(name))


def source_lines(following: Following, states: Sequence[State], file: str) -> list[str]:
    """The line of the source program for each event of a session: that of an issue, and else nothing."""
    listing = listing_of(file, following.session)
    is_made = [event == "issue" and not following.is_refused(n) for n, event in enumerate(following.session.events)]
    return [listing.next_text(state) if made else "" for made, state in zip(is_made, states)]


def blocks_of_values(states: Sequence[State]) -> list[str]:
    """The lines of the values after each event of a session, a block for each."""
    values = [state.values for state in states]
    return ["".join(f"  {line}\n" for line in value_lines(*pair)) for pair in zip(values[1:], values)]


def work() -> int:
    given, program = arguments(), Program()
    set_errors(sys.stdout, "backslashreplace")
    it = session_of(given.name)
    following = Following(program, it, None, None)
    following.check_schedule()
    states: list[State] = []
    if given.values or given.source:
        following.follow()
        states = retraced(following).states
    blocks = blocks_of_values(states) if given.values else []
    sources = source_lines(following, states, given.source) if given.source else []
    ran = program.run(["events"], it.text.encode("latin-1"))
    schedule = it.text.removesuffix("\n").split("\n")[it.deck_end :]
    lines = itertools.zip_longest(schedule, ran.printed.decode().splitlines(), sources, blocks, fillvalue="")
    for number, (line, answer, source, block) in enumerate(lines, 1):
        if given.events and not any(min(number, len(schedule)) in span for span in given.events):
            continue
        line, answer = printable(line), f"{answer:<20} {source}" if source else answer
        print(f"{line:<19}{answer}" if answer or not line else line)
        sys.stdout.write(block)
    sys.stderr.buffer.write(ran.told)
    return ran.status


def main() -> int:
    return ended("tools/beside", work, Fault)

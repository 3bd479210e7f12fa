"""Drives a machine by hand: it shows what each part of the machine has, offers the events that may be tried, makes the
chosen one by `cdc6600 events`, and tells in words what it did or why it is refused. Events are taken back by `undo`.
With --save the session is written to a file at the end; `save FILE` writes it at any time. Where a schedule comes after
the deck, its events are made first. docs/use/tools.md has an example.

The status is 0, or 1 for bad input or an unusable terminal, or 2 if the command line is refused. CDC6600 may name the
program to ask.
"""

import curses
import os
import signal
import sys
from argparse import Namespace
from types import FrameType

from cdc6600.drawing.following import Fault, text_of
from cdc6600.operating.board import WIDTH
from cdc6600.operating.commands import Commands
from cdc6600.operating.operation import Operation
from cdc6600.operating.plain import Plain
from cdc6600.operating.screen import LINES, Screen
from cdc6600.shared.ending import Parser, ended, printable
from cdc6600.shared.program import Program


def arguments() -> Namespace:
    parser = Parser(__doc__)
    parser.add_argument("--plain", action="store_true", help="write and read lines, and leave the terminal as it is")
    parser.add_argument("--save", metavar="FILE", help="where the session is written at the end")
    parser.add_argument("deck", metavar="DECK",
                        help="a deck, with or without a schedule after it, or a source program NAME.source")
    return parser.parse_args()


def check_terminal() -> None:
    """Raises Fault where the whole terminal can't be used."""
    if not (sys.stdin.isatty() and sys.stdout.isatty()):
        raise Fault("standard input and output", "they are no terminal; --plain takes lines")
    columns, lines = os.get_terminal_size(sys.stdout.fileno())
    if columns < WIDTH or lines < LINES:
        raise Fault("the terminal", f"{columns} columns and {lines} lines; it takes {WIDTH} and {LINES}, or --plain")
    try:
        curses.setupterm()
    except curses.error as fault:
        raise Fault("the terminal", f"TERM is {os.environ.get('TERM', 'nothing')}: {fault}") from None


def end_by_signal(number: int, _frame: FrameType | None) -> None:
    """Ends as at the end of the main function, which leaves the terminal as it was."""
    sys.exit(128 + number)


def operate(given: Namespace, commands: Commands) -> None:
    if given.plain:
        Plain(commands).run()
    else:
        curses.wrapper(lambda window: Screen(window, commands).run())
    if given.save:
        commands.operation.save(given.save)
        print(printable(f"saved in {given.save}, {commands.operation.progress}"))


def work() -> int:
    given = arguments()
    for number in (signal.SIGTERM, signal.SIGHUP):
        signal.signal(number, end_by_signal)
    text = text_of(given.deck)
    if not given.plain:
        check_terminal()
    operation = Operation(Program(), given.deck, text)
    try:
        if given.save:
            operation.check_target(given.save)
        operate(given, Commands(operation, given.save))
    finally:
        operation.close()
    return 0


def main() -> int:
    return ended("tools/operate", work, Fault)

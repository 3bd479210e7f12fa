"""Drives a machine by lines."""

import importlib
import sys
from contextlib import suppress

from cdc6600.drawing.following import Fault
from cdc6600.drawing.forms import MOST_COLUMNS
from cdc6600.shared.ending import set_errors

from .board import board, offered, wrapped
from .commands import Commands, Quit
from .phrases import completions

PROMPT = "> "
# The characters of a line that are read. Lines that nobody types make at most as many events as a page has columns.
LONGEST, MOST_EVENTS = 1000, MOST_COLUMNS
# So that a line is completed by the tab key, and a terminal gets no sequences that it may not know.
BINDINGS = ("tab: complete", "set enable-bracketed-paste off", "set bell-style none")


class Plain:
    """The machine, and the events that may be tried, in lines of standard output. Lines of standard input say what is
    done: the number of an event that is offered, an event, or a command."""

    def __init__(self, commands: Commands) -> None:
        self.commands, self.operation = commands, commands.operation
        self.is_terminal = sys.stdin.isatty() and sys.stdout.isatty()

    def run(self) -> None:
        """Goes on up to `quit`, or the end of standard input."""
        set_errors(sys.stdin, "surrogateescape")
        set_errors(sys.stdout, "backslashreplace")
        self.begin_lines()
        self.show(self.operation.said())
        for line in iter(self.typed, ""):
            meant, before = self.meant(line.strip()), len(self.operation.events)
            try:
                said = self.commands.carry_out(meant)
            except Quit:
                return
            # What changes no event has no machine to show, but an empty line asks for it.
            if not self.is_terminal and len(self.operation.events) > MOST_EVENTS:
                raise Fault("standard input", f"it makes more than {MOST_EVENTS} events")
            if self.commands.pane:
                print(*self.commands.lines(), sep="\n")
                self.commands.pane = None
            elif len(self.operation.events) != before or not meant:
                self.show(said)
            else:
                print(*wrapped(said), sep="\n")

    def begin_lines(self) -> None:
        """Has the lines of a terminal completed, and kept to be typed again. `readline` isn't imported where nobody
        types lines, since it takes the signal of a terminal that is resized, which the whole screen needs."""
        if not self.is_terminal:
            return
        with suppress(ImportError):
            readline = importlib.import_module("readline")
            readline.set_completer_delims("")
            readline.set_completer(self.completion)
            for binding in BINDINGS:
                readline.parse_and_bind(binding)

    def completion(self, typed: str, number: int) -> str | None:
        """One of the lines that begin with what is typed, by its number from 0."""
        found = completions(typed, [offer.event for offer in self.operation.offers()])
        return found[number] if number < len(found) else None

    def typed(self) -> str:
        """The next line of standard input, empty at its end."""
        if self.is_terminal:
            try:
                return input(PROMPT) + "\n"
            except EOFError:
                return ""
        print(PROMPT, end="", flush=True)
        line = sys.stdin.readline(LONGEST)
        if len(line) == LONGEST:
            raise Fault("standard input", f"a line has {LONGEST} characters or more")
        return line

    def meant(self, line: str) -> str:
        """The event that a number stands for; any other line as it is."""
        offers = self.operation.offers()
        is_number = line.isdecimal() and 1 <= int(line) <= len(offers)
        return offers[int(line) - 1].event if is_number else line

    def show(self, said: str) -> None:
        """Shows what is said, the machine, and what may be tried."""
        print(f"\n--- {self.operation.progress} ---")
        print(*board(self.operation.view), sep="\n")
        print("", *wrapped(said), *self.operation.ending(), "", sep="\n")
        for number, offer in enumerate(self.operation.offers(), 1):
            print(f"{number:>2} {offered(offer)}")

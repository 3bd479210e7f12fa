"""What is typed to drive a machine: events, and commands."""

from typing import Callable

from cdc6600.asking.states import Refusal
from cdc6600.drawing.following import EVENT, Fault
from cdc6600.drawing.units import NAMES, UNITS
from cdc6600.shared.ending import printable

from .operation import Operation
from .phrases import near

HELP = (
    "Type an event, as in docs/use/formats.md, or a command: next makes the event that a drain would make next, undo "
    "takes the last one back, and next 5 and undo 5 five of them; through UNIT takes a unit to its store event, until "
    "X6 makes next events until X6 has another value, until 110 until that word has, and until refused issues until "
    "an issue would be refused; values and past show the values and the past events, source the listing of a source "
    "program, save FILE writes the deck and the events as a session, quit ends; if events aren't saved, the second "
    "quit does. n, u and q are next, undo and quit."
)
# What may be typed for a command.
SHORT = {"n": "next", "u": "undo", "q": "quit"}
# The most events of one command.
MOST = 1000
OVER = "The session is at its end. undo takes its last event back, save FILE saves it, quit ends."
# What may be shown instead of the machine.
VALUES, PAST, SOURCE = PANES = ("values", "past", "source")


class Quit(Exception):
    """The operation is at its end."""


class Commands:
    """Carries out what is typed, on an operation. A file that is named once is that of later saves too. `pane` is what
    is shown instead of the machine, or none. `is_saved_at_end` says that the events are saved when the operation ends,
    and `is_warned` that the last command was a `quit` with events that aren't saved."""

    def __init__(self, operation: Operation, file: str | None) -> None:
        self.operation, self.file = operation, file
        self.pane: str | None = None
        self.is_saved_at_end, self.is_warned = bool(file), False

    def carry_out(self, typed: str) -> str:
        """Carries out a line; what is said of it. Raises Quit at the end, and Fault where the program fails."""
        word, *words = typed.split() or [""]
        word, rest = SHORT.get(word, word), " ".join(words)
        line = f"{word} {rest}".rstrip(" ")
        if line == "quit":
            return self.quit()
        self.is_warned = False
        if word == "save":
            return self.save(rest)
        if word == "through":
            return self.through(rest)
        if word == "until":
            return self.until(rest)
        if word in ("next", "undo") and rest:
            return self.repeat(word, rest)
        if line in PANES:
            return self.turn(line)
        commands: dict[str, Callable[[], str]] = {
            "undo": self.undo, "next": self.next, "help": lambda: HELP, "?": lambda: HELP, "": self.operation.said,
        }
        return commands[line]() if line in commands else self.make(line)

    def turn(self, pane: str) -> str:
        """Shows the values, the past events or the listing instead of the machine, and the machine again where they are
        shown."""
        self.pane = None if self.pane == pane else pane
        return self.operation.said()

    def lines(self) -> list[str]:
        """The lines of what is shown instead of the machine."""
        it = self.operation
        return {VALUES: it.value_lines, PAST: it.past, SOURCE: it.source_lines}[self.pane or VALUES]()

    def next(self) -> str:
        """Makes the event that a drain would make next, or with nothing pending the exchange or an issue."""
        if self.operation.is_over:
            return OVER
        event = self.operation.next_event()
        if event is None:
            refusal = self.operation.judge("issue")
            return f"Nothing is pending, and issue is refused: {refusal and refusal.answer}."
        return self.make(event)

    def repeat(self, word: str, count: str) -> str:
        """Makes so many next events, or takes so many back."""
        if not count.isdecimal() or not 0 < int(count) <= MOST:
            return f"Say how often, from 1 to {MOST}: {word} 5, for example."
        if word == "undo":
            return self.undo(int(count))
        return self.go_on(lambda made: made == int(count))

    def until(self, what: str) -> str:
        """Makes next events until a value has changed, or issues until an issue would be refused."""
        if what == "refused":
            return self.go_on(lambda _: self.operation.judge("issue"), issues=True)
        name, before = self.operation.name_of(what), self.operation.values()
        if name not in before:
            return "Say until when: until X6, until refused, or until 110 for a word that the deck shows."
        return self.go_on(lambda made: self.operation.values()[name] != before[name])

    def go_on(self, is_end: Callable[[int], object], issues: bool = False) -> str:
        """Makes next events, or issues, until a condition on the number that it has made holds, or no event is left. It
        makes at most `MOST`."""
        for made in range(MOST):
            if is_end(made):
                return self.operation.said()
            event = None if self.operation.is_over else "issue" if issues else self.operation.next_event()
            if event is None:
                return self.next()
            self.operation.make(event)
        return f"These are {MOST} events. {self.operation.said()}"

    def through(self, unit: str) -> str:
        """Takes a unit to its store event, or as far as it may go."""
        if unit not in UNITS:
            return f"Say which unit: through {UNITS[0]}, for example.{near(f'read {unit}').replace('read', 'through')}"
        if self.operation.is_over:
            return OVER
        made, event = 0, self.operation.step_of(unit)
        refusal: Refusal | None = None
        while event and not refusal:
            refusal = self.operation.judge(event)
            if not refusal:
                self.operation.make(event)
                made, event = made + 1, self.operation.step_of(unit)
        held = f" {event} would be refused: {refusal.answer}." if refusal else ""
        return f"{self.operation.said()}{held}" if made else held.strip(" ") or f"{NAMES[unit]} isn't reserved."

    def make(self, event: str) -> str:
        if not EVENT.fullmatch(event):
            shown = printable(event)[:40]
            return f"That is no event and no command: {shown}.{near(event) or ' ? says what may be typed.'}"
        if self.operation.is_over:
            return OVER
        self.operation.make(event)
        return self.operation.said()

    def undo(self, count: int = 1) -> str:
        if not self.operation.events:
            return "There is no event to take back."
        return f"Taken back: {', '.join(self.operation.take_back(count))}. {self.operation.said()}"

    def save(self, named: str) -> str:
        """Saves the session. What keeps it from being written is told, and nothing else happens."""
        file = named or self.file
        if not file:
            return "Say where: save FILE."
        try:
            self.operation.save(file)
        except Fault as fault:
            return f"Not saved: {printable(str(fault))}."
        self.file = file
        return f"Saved in {printable(file)}, {self.operation.progress}."

    def quit(self) -> str:
        """Ends the operation. If events would be lost, the second one does."""
        if self.is_warned or self.is_saved_at_end or self.operation.is_saved:
            raise Quit
        self.is_warned = True
        return "The events aren't saved. save FILE saves them; quit once more ends without."

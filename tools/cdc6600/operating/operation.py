"""A machine that is driven by hand: the events made so far, with their answers, states and words."""

import os
import re
from dataclasses import dataclass
from pathlib import Path
from typing import Iterable

from cdc6600.asking.states import OUT_OF_RANGE, RUNNING, Refusal, State
from cdc6600.drawing.following import ENDS, EVENT, Fault, Following, Session, plain
from cdc6600.drawing.listing import Listing
from cdc6600.drawing.retracing import Retracing, View
from cdc6600.drawing.sentences import reservation, said
from cdc6600.drawing.values import value_lines
from cdc6600.drawing.words import Words
from cdc6600.shared.ending import printable
from cdc6600.shared.program import Program
from cdc6600.shared.telling import plural
from cdc6600.shared.writing import put, why_not_written

from .conversation import Conversation


@dataclass(frozen=True)
class Offer:
    """An event that may be tried: its line, what it is about, and its refusal, or none where it is made."""

    event: str
    about: str
    refusal: Refusal | None


def identity(file: str | Path) -> tuple[int, int]:
    """What tells a file from others."""
    found = os.lstat(file)
    return found.st_dev, found.st_ino


class Operation:
    """A session that grows by an event at a time. Its program answers each one, and an event is taken back by a new run
    of the schedule without it."""

    def __init__(self, program: Program, file: str, text: str) -> None:
        """Makes the events of the schedule that comes after the deck, up to its end or drain, if there is one.

        Raises Fault where the deck is refused, or a line of the schedule is no event."""
        self.program, self.file, self.listing = program, file, Listing(file)
        given = Session(file, text)
        lines = text.split("\n")[: given.deck_end]
        # A deck without its end is refused as it was given.
        self.deck = "".join(f"{line}\n" for line in lines) or text
        self.package = "".join(re.findall(r"^start ([0-7]+)$", self.deck, re.MULTILINE)[:1])
        self.replay([event for event in given.events if event not in ENDS])
        # The events that a file has, and which file was written last.
        self.saved = list(self.events)
        self.written: tuple[int, int] | None = None

    def replay(self, events: Iterable[str]) -> None:
        """Begins anew, and makes these events."""
        self.following = Following(self.program, Session(self.file, self.deck), None, "")
        self.retracing = Retracing(self.following)
        self.conversation = Conversation(self.program.path, self.deck)
        for event in events:
            if not EVENT.fullmatch(event):
                raise Fault(self.file, "no event: " + printable(event)[:60])
            self.make(event)

    @property
    def events(self) -> list[str]:
        """The events made so far, refused ones too."""
        return self.following.session.events

    @property
    def is_saved(self) -> bool:
        return self.events == self.saved

    @property
    def progress(self) -> str:
        return f"after {len(self.events)} {plural(self.events, 'event', 'events')}"

    @property
    def is_over(self) -> bool:
        """Whether the schedule has its last line."""
        return self.events[-1:] != [] and self.events[-1] in ENDS

    @property
    def state(self) -> State:
        return self.retracing.states[-1]

    @property
    def view(self) -> View:
        return self.retracing.view(len(self.events))

    def judge(self, event: str) -> Refusal | None:
        """The refusal of an event now, or none if it would be made. The last line of a schedule is always accepted."""
        return None if event in ENDS else self.retracing.machine.judge(event)

    def make(self, event: str) -> None:
        """Makes an event, or has it refused. Raises Fault where the program gives no answer that fits."""
        is_last = event in ENDS
        answers = self.conversation.ask_last(event) if is_last else [self.conversation.ask(event)]
        self.following.take(event, answers)
        self.retracing.go_on()

    def take_back(self, count: int = 1) -> list[str]:
        """Takes so many of the last events back; their lines, the last one first."""
        events = self.events[:-count], self.events[-count:]
        self.close()
        self.replay(events[0])
        return events[1][::-1]

    def said(self) -> str:
        """The last event, its answer and what it means, or that there was none."""
        if not self.events:
            return said("booted")
        n = len(self.events) - 1
        is_dump = self.is_over and self.following.answers[n] != "NOT DRAINED"
        answer = "the dump" if is_dump else self.following.answers[n]
        return f"{self.events[n]} -> {answer}. {Words(self.retracing).told(n)}"

    def ending(self) -> list[str]:
        """The lines that the program printed at the end."""
        return self.following.answers[len(self.events) - 1 :] if self.is_over else []

    def past(self) -> list[str]:
        """A line for each event so far, with its number and its answer."""
        answers = ["the dump" if it.startswith("P ") else it for it in self.following.answers]
        return [f"{n:>4} {event:<18} {answer}" for n, (event, answer) in enumerate(zip(self.events, answers), 1)]

    def source_lines(self) -> list[str]:
        """The listing of the source program, with a mark before the next instruction."""
        return self.listing.lines(self.retracing.machine.drained())

    def values(self) -> dict[str, str]:
        return self.state.values

    @staticmethod
    def name_of(typed: str) -> str:
        """The name of a value: that of a register, or the address of a word."""
        return f"{int(typed, 8):06o}" if re.fullmatch("[0-7]{1,6}", typed) else typed.upper()

    def value_lines(self) -> list[str]:
        """The values now in lines, those that the last event has changed with a mark."""
        return value_lines(self.state.values, self.retracing.states[-2:][0].values)

    def next_event(self) -> str | None:
        """The event that a drain would make next: that of the oldest reservation, or the freeing of the bank that it
        waits for. With nothing pending it is the exchange that is asked for, or else an issue; on a machine that was
        just booted the request for the deck's package. None where it would be refused."""
        state = self.state
        if self.following.log.text == "none" and not state.asked:
            return self.first_request
        if not state.pending:
            return next((event for event in ("exchange", "issue") if not self.judge(event)), None)
        event = state.next_of(state.pending[0])
        refusal = self.judge(event)
        return f"bank {refusal.named}" if refusal and refusal.code == "E13" else event

    @property
    def first_request(self) -> str:
        """The request for the package of the deck's start line."""
        return f"ask {plain(self.package)}"

    def step_of(self, unit: str) -> str | None:
        """The event that the reservation of a unit is to make next, or none."""
        row = self.state.units.get(unit)
        return self.state.next_of(row) if row else None

    def offers(self) -> list[Offer]:
        """The events that may be tried, those that are made first, each kind oldest first."""
        if self.is_over:
            return []
        offers = [Offer(event, about, self.judge(event)) for event, about in self.candidates()]
        return sorted(offers, key=lambda offer: offer.refusal is not None)

    def candidates(self) -> list[tuple[str, str]]:
        """Each event that some part of the machine has to do now, with what it is about."""
        state = self.state
        asked = [("exchange", f"with the package at {state.asked}")] if state.asked else []
        request = [] if state.asked else [(self.first_request, "the package of the deck's start line")]
        halted = request if state.halt != RUNNING else []
        running = [] if halted else request
        ends = [("drain", "carries out all that is pending, and ends"), ("end", "ends the schedule as it is")]
        issue = [("issue", self.next_text if not halted else "")]
        steps = [(state.next_of(row), reservation(self.following.rows, row)) for row in state.pending]
        banks = [(f"bank {bank}", "is busy") for bank in sorted(state.banks)]
        return [*asked, *halted, *issue, *steps, *banks, *running, *ends]

    @property
    def next_text(self) -> str:
        """The text of the instruction that is issued next once all that is pending is carried out."""
        text = self.retracing.machine.drained().next
        return "" if text == OUT_OF_RANGE else text

    def check_target(self, file: str) -> None:
        """Raises Fault where a file is there that this operation hasn't written, or it would stand in no folder."""
        if Path(file).exists() and Path(file).samefile(self.file):
            raise Fault(file, "it is the deck itself, and isn't written over")
        why_not = why_not_written(file, lambda it: identity(it) == self.written)
        if why_not:
            raise Fault(file, why_not)

    def save(self, file: str) -> None:
        """Writes the deck and the events as a session. Raises Fault where that can't be done."""
        self.check_target(file)
        events = self.events if self.is_over else [*self.events, "end"]
        text = (self.deck + "".join(f"{event}\n" for event in events)).encode("latin-1")
        try:
            put(file, text)
            self.saved, self.written = list(self.events), identity(file)
        except OSError as fault:
            raise Fault(file, fault.strerror) from None
        except ValueError:
            raise Fault(file, "that is no name of a file") from None

    def close(self) -> None:
        self.conversation.end()

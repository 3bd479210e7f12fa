"""What the parts of a session wait for, in minor cycles.

Each cycle of the issuing position is work or has one cause, and so has each cycle of a reservation from its issue to
its last event. The cause is the refusal that the machine would answer, or the order of the schedule if the event would
be made.
"""

from dataclasses import dataclass
from typing import Callable

from cdc6600.asking.states import Refusal
from cdc6600.drawing.following import Following
from cdc6600.drawing.retracing import Retracing
from cdc6600.shared.telling import numbered

from .clock import ORDER, Clock, Feed, Part
from .times import NO_TIMES, Times

# The causes of waits by the numbers of refusals, as they are printed.
CAUSES = {
    "E1": "halted", "E2": "fault flag set", "E3": "budget used up", "E4": "branch pending",
    "E5": "exchange asked for", "E6": "fetch waits for a store", "E7": "unit busy (first order)",
    "E8": "result reserved (first order)", "E9": "operand awaited (second order)", "E10": "result held (third order)",
    "E11": "hopper full", "E12": "out of turn", "E13": "bank busy", "E14": "older reference to the word",
    ORDER: "order of the schedule",
}


@dataclass(frozen=True)
class Hold:
    """What holds a reservation: the kind of its next event, and its refusal, or none if only the order of the schedule
    delays it. `cycles` counts the minor cycles, and is 0 if there are no times."""

    event: str
    refusal: Refusal | None
    cycles: int = 0

    @property
    def reason(self) -> str:
        """The refusal, or that there is only the order."""
        return self.refusal.answer if self.refusal else CAUSES[ORDER]

    @property
    def text(self) -> str:
        """The event, its refusal, the reservations that hold it back, and the cycles."""
        by = f" ({numbered(self.refusal.rows)})" if self.refusal and self.refusal.rows else ""
        cycles = f", {self.cycles} {'cycle' if self.cycles == 1 else 'cycles'}" if self.cycles else ""
        return f"{self.event}: {self.reason}{by}{cycles}"


class Judged:
    """Says by a machine what a part of a session waits for. `n` is the number of events that were made.

    `holds` has for each reservation its holds by their events and causes, the last one at the end. A wait of the
    issuing position belongs to the reservation that is issued next, unless an exchange comes before."""

    def __init__(self, following: Following) -> None:
        self.retracing, self.n = Retracing(following), 0
        self.holds: list[dict[tuple[str, str], Hold]] = [{} for _ in following.rows]
        self.issued_next = issued_next(following)

    def go_to(self, n: int) -> None:
        """Goes on until so many events are made."""
        self.n = n
        self.retracing.go_to(n)

    def row(self, part: Part) -> int:
        """The reservation that a part makes its next event for, or 0."""
        return part.number or self.issued_next[self.n]

    def refusal(self, part: Part) -> Refusal | None:
        """The refusal of a part's next event, or none."""
        return self.retracing.machine.judge(self.event(part))

    def event(self, part: Part) -> str:
        return self.retracing.machine.state.next_of(part.number) if part.number else part.event

    def cause(self, part: Part, cycles: int) -> str:
        """The number of the refusal of a part's next event, or that only the order of the schedule delays it. It is
        counted as a hold of so many cycles."""
        refusal = self.refusal(part)
        self.hold(part, refusal, cycles)
        return refusal.code if refusal else ORDER

    def hold(self, part: Part, refusal: Refusal | None, cycles: int = 0) -> None:
        holds, key = self.holds[self.row(part)], (part.event, refusal.code if refusal else ORDER)
        before = holds.pop(key, None)
        holds[key] = Hold(part.event, refusal, cycles + (before.cycles if before else 0))


def issued_next(following: Following) -> list[int]:
    """For each event the reservation that is issued next from there on, or 0: then an exchange or an issue without a
    reservation comes first."""
    rows, row, found = {n: row for row, n in following.marks}, 0, list[int]()
    for n in reversed(range(following.columns)):
        kind = following.session.events[n]
        if kind in ("issue", "exchange") and not following.is_refused(n):
            row = rows[n]
        found.append(row)
    return found[::-1]


class Account:
    """The account of a session that was followed to its end, by what says what its parts wait for: the minor cycle of
    each event in `cycles`, and the holds of each reservation. The parts of its clock have their waits: `issuing`, and
    in `parts` each reservation."""

    def __init__(self, following: Following, times: Times, judge: Callable[[Following], Judged] = Judged) -> None:
        judged = self.judged = judge(following)
        self.clock, self.holds, self.cycles = Clock(times, judged.cause), judged.holds, list[int]()
        feed = Feed(following, self.clock)
        for n in range(following.columns):
            judged.go_to(n)
            feed.event(n)
            self.cycles.append(self.clock.now)


def account(following: Following, times: Times) -> Clock:
    """The clock of a session that was followed to its end, with the waits of its parts."""
    return Account(following, times).clock


def holds_by_events(following: Following) -> list[dict[tuple[str, str], Hold]]:
    """The holds of each reservation without times: the refusals of its next event in the states between its events."""
    judged, clock = Judged(following), Clock(NO_TIMES)
    feed = Feed(following, clock)
    for n in range(following.columns):
        judged.go_to(n)
        for part in (it for it in (clock.issuing, *clock.pending) if judged.row(it)):
            refusal = judged.refusal(part)
            if refusal:
                judged.hold(part, refusal)
        feed.event(n)
    return judged.holds


def faults_of(clock: Clock) -> list[str]:
    """Where waits and work aren't the cycles of a part; nothing where all is right."""
    faults = list[str]()
    for it in (clock.issuing, *clock.parts):
        if it.ended is not None and it.work + it.waits.total() != it.ended - it.begun:
            counted = f"{it.work} of work and {it.waits.total()} of waits"
            faults.append(f"part {it.number}: {counted} aren't the cycles from {it.begun} to {it.ended}")
    return faults

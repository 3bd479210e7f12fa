"""The minor cycle of each event of a session.

An event happens when the event before it in the schedule has happened, and its own part is ready by the file of times:
a unit finishes so many cycles after it read, for example. So these are the earliest times at which the events can
happen in this order. A refused event takes no time. What `drain` carries out at the end of a schedule takes none
either, and neither does a peripheral access.
"""

from collections import Counter
from dataclasses import dataclass, field
from typing import Callable

from cdc6600.drawing.following import ENDS, Following, Replays, Reservation
from cdc6600.limits import BANKS

from .times import Times

# What a part that waits is said to wait for if nothing else is known: the schedule makes its event later.
ORDER = "order"
PARCELS = 4


def no_cause(_part: "Part", _cycles: int) -> str:
    """The cause of a wait, where nobody asks."""
    return ORDER


def after(times: Times, part: "Part | Reservation", event: str) -> tuple[str, int]:
    """The event of a reservation that comes after this one, empty if none does, and how many cycles later it is
    ready."""
    if event == "read":
        return "finish", part.cycles
    if event == "finish":
        return "store", 0
    if event == "store" and part.address is not None:
        return "accept", times["hopper"]
    is_awaited = bool(part.channel) and event != "return"
    return ("return", times["access"] if event == "accept" else 0) if is_awaited else ("", 0)


@dataclass(eq=False)
class Part:
    """Something that makes one event after another: a reservation, or the issuing position, whose number is 0.

    `event` is the kind of the next one, empty at the end, and `ready` the cycle from which on the part is ready for
    it. `begun` and `ended` are the cycles of the first and the last event. All cycles between them are `work` or are
    counted in `waits` by their causes."""

    number: int
    event: str
    ready: int
    unit: str = ""
    text: str = ""
    address: int | None = None
    channel: int = 0
    cycles: int = 0
    begun: int = 0
    ended: int | None = None
    work: int = 0
    waits: Counter[str] = field(default_factory=Counter)

    def then(self, event: str, now: int, cycles: int = 0) -> None:
        """Works for so many cycles from now on, and is ready for its next event then."""
        self.event, self.ready = event, now + cycles
        self.work += cycles

    def end(self, now: int) -> None:
        self.event, self.ended = "", now


class Clock:
    """Counts minor cycles while events are made. `cause` is called for each part that is ready and waits when time goes
    on, with the cycles of the wait; it says what the part waits for. `first` is the cycle of the first issue."""

    def __init__(self, times: Times, cause: Callable[[Part, int], str] = no_cause) -> None:
        self.times, self.cause, self.now = times, cause, 0
        self.issuing, self.parts, self.pending = Part(0, "issue", 0), list[Part](), list[Part]()
        self.banks: dict[int, int] = {}
        self.first: int | None = None

    def advance(self, cycle: int) -> None:
        """Goes on to a cycle, unless it is over."""
        if cycle <= self.now:
            return
        for part in (self.issuing, *self.pending):
            begin = max(self.now, part.ready)
            if begin < cycle:
                part.waits[self.cause(part, cycle - begin)] += cycle - begin
        self.now = cycle

    def issue(self, text: str) -> None:
        self.advance(self.issuing.ready)
        self.first = self.now if self.first is None else self.first
        self.issuing.then("issue", self.now, self.times.issue(text))

    def reserve(self, number: int, unit: str, text: str, is_taken: bool, address: int | None = None) -> Part:
        """The instruction that was just issued reserves a unit; its part. A branch is taken or not, and a reference in
        range has an absolute address, which has to be known at the store event."""
        part = Part(number, "read", self.now, unit, text, address, begun=self.now)
        part.cycles = self.times.unit(unit, is_taken)
        part.channel = channel_of(text)
        self.parts.append(part)
        self.pending.append(part)
        return part

    def step(self, part: Part) -> None:
        """A reservation makes its next event."""
        self.advance(part.ready)
        if part.event == "accept" and part.address is not None:
            self.banks[part.address % BANKS] = self.now + self.times["bank"]  # E13
        event, cycles = after(self.times, part, part.event)
        if event:
            part.then(event, self.now, cycles)
        else:
            self.end(part)

    def end(self, part: Part) -> None:
        part.end(self.now)
        self.pending.remove(part)

    def free(self, bank: int) -> None:
        self.advance(self.banks.pop(bank))

    def exchange(self) -> None:
        """Registers and package are exchanged, once the last issue is over."""
        self.advance(self.issuing.ready)
        self.issuing.then("issue", self.now, self.times["exchange"])

    def close(self) -> int:
        """The end of the schedule: the cycle at which the last event has happened and the last issue is over."""
        self.advance(self.issuing.ready)
        self.issuing.end(self.now)
        return self.now


def channel_of(text: str) -> int:
    """The channel of an instruction that loads, otherwise 0."""
    return int(text[2]) if text.startswith("SA") and text[2] in "12345" else 0


def is_taken(replays: Replays, before: str, after: str) -> bool:
    """Whether a branch leads elsewhere than to the next instruction, by the logs without it and with it."""
    (p, parcel), reached = ([replays.number(log, 0, field) for field in (1, 3)] for log in (before, after))
    parcel += 2
    following = [p, parcel] if parcel < PARCELS else [(p + 1) % (1 << 18), 0]
    return reached != following


class Feed:
    """Gives a clock the events of a session that was followed."""

    def __init__(self, following: Following, clock: Clock) -> None:
        self.following, self.clock, self.parts = following, clock, dict[int, Part]()
        self.rows = {n: row for row, n in following.marks}

    def event(self, n: int) -> None:
        """Makes the event n, unless it was refused."""
        kind, *fields = self.following.session.events[n].split(" ")
        if kind in ENDS:
            self.clock.close()
        elif self.following.is_refused(n):
            return
        elif kind == "issue":
            self.issue(self.rows[n])
        elif kind == "bank":
            self.clock.free(int(fields[0]))
        elif kind == "exchange":
            self.clock.exchange()
        elif self.rows[n]:
            self.clock.step(self.parts[self.rows[n]])

    def issue(self, row: int) -> None:
        """An issue, with its reservation if it has one."""
        it = self.following.rows[row]
        self.clock.issue(it.text if row else "")
        if row:
            taken = it.unit == "branch" and is_taken(self.following.replays, it.before, it.after)
            self.parts[row] = self.clock.reserve(row, it.unit, it.text, taken, it.address)


def clocked(following: Following, times: Times) -> list[int]:
    """The minor cycle of each event of a session that was followed to its end."""
    clock = Clock(times)
    feed, cycles = Feed(following, clock), list[int]()
    for n in range(following.columns):
        feed.event(n)
        cycles.append(clock.now)
    return cycles

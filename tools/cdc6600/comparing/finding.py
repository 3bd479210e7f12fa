"""Finds the step of a log after which an emulator's dump differs from that of `replay`."""

import time
from dataclasses import dataclass
from functools import cached_property
from pathlib import Path
from typing import Iterable

from cdc6600.shared.writing import put

from .dumps import Difference, Dump
from .emulator import Emulator
from .faults import Failure, Slow
from .proved import Given, Proved
from .steps import Steps

# How many words of memory the kept dumps of a deck have, as long as there is more than one.
MOST_KEPT = 1 << 14


class Outcome:
    """What came of the first steps of a log: the dump of `replay`, and the emulator's, or why there is none."""

    def __init__(self, proved: Dump, came: Dump | None, fault: Failure | None = None) -> None:
        self.proved, self.came, self.fault = proved, came, fault
        self.is_same = came is not None and came.lines == proved.lines
        self.is_slow = isinstance(fault, Slow)
        # The seconds of the limit of time that a slow emulator ran into.
        self.limit = fault.limit if isinstance(fault, Slow) else 0

    @cached_property
    def judged(self) -> tuple[tuple[Difference, ...], str]:
        """Where the dumps differ, and why the emulator's is none. That is asked for at the step that is found alone,
        since before it large memories may differ in each word."""
        if self.came is None:
            return (), str(self.fault)
        try:
            return self.proved.differences(self.came), ""
        except Failure as failure:
            return (), str(failure)

    @property
    def differences(self) -> tuple[Difference, ...]:
        return self.judged[0]

    @property
    def failure(self) -> str:
        """What the emulator did instead of a dump, if it did."""
        return self.judged[1]


@dataclass(frozen=True)
class Found:
    """The step after which the dumps differ while they agree before it, and what came of it. Step 0 is the booted
    machine, before all others."""

    step: int
    outcome: Outcome


class Replayed:
    """A deck with a log, and what `replay` prints for its beginnings. An emulator gets the deck in `file`. Some dumps
    are kept, since several comparisons on one deck ask for the same ones."""

    def __init__(self, proved: Proved, given: Given, log: str, file: Path) -> None:
        """Asks for the dump after the whole log, which is kept, since each comparison begins with it.

        Raises BadInput where the program refuses the log."""
        self.proved, self.given, self.file = proved, given, file
        self.whole, self.steps, self.kept = proved.dump(given, log), Steps(log), dict[int, Dump]()
        put(file, given.text)

    def dump(self, count: int) -> Dump:
        if count == len(self.steps):
            return self.whole
        found = self.kept.get(count)
        if not found:
            found = self.proved.dump(self.given, self.steps.beginning(count))
            if (len(self.kept) + 1) * self.given.size > MOST_KEPT:
                self.kept.clear()
            self.kept[count] = found
        return found


class Comparison:
    """An emulator beside `replay`, on one deck with one log. It keeps the steps and the seconds of the last call of the
    emulator that printed something."""

    def __init__(self, replayed: Replayed, emulator: Emulator) -> None:
        self.replayed, self.emulator, self.steps = replayed, emulator, replayed.steps
        self.last_ended: tuple[int, float] | None = None

    def outcome(self, count: int) -> Outcome:
        """What comes of so many steps."""
        log, proved, begun = self.steps.beginning(count), self.replayed.dump(count), time.monotonic()
        try:
            most = self.replayed.given.most_printed(log)
            printed = self.emulator.printed(log, self.replayed.file, most, count)
        except Failure as failure:
            return Outcome(proved, None, failure)
        self.last_ended = count, time.monotonic() - begun
        return Outcome(proved, Dump(printed))

    def first(self, points: Iterable[int]) -> tuple[int | None, Found] | None:
        """The first of these numbers of steps after which the dumps differ, with the last one before it after which
        they agree, or None for that if there is none; None where they agree after all of them.

        A call that doesn't end in time is made once more, since other work may have held it up."""
        good = None
        for count in points:
            outcome = self.outcome(count)
            if outcome.is_slow:
                outcome = self.outcome(count)
            if not outcome.is_same:
                return good, Found(count, outcome)
            good = count
        return None

    def find(self, points: Iterable[int]) -> Found | None:
        """The step after which the dumps differ, and what came of it; None where they agree after all these numbers of
        steps."""
        first = self.first(points)
        return self.halve(*first) if first else None

    def halve(self, good: int | None, found: Found) -> Found:
        """Goes from a number of steps after which the dumps agree, if there is one yet, and one after which they
        differ, to two that are neighbours."""
        if good is None:
            booted = self.outcome(0)
            if not booted.is_same:
                return Found(0, booted)
        good = good or 0
        while found.step - good > 1:
            middle = (good + found.step) // 2
            outcome = self.outcome(middle)
            if outcome.is_same:
                good = middle
            else:
                found = Found(middle, outcome)
        return found

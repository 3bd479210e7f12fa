"""What a session takes as a whole: its minor cycles, its instructions, and what was waited for."""

import re
from collections import Counter

from .clock import Clock


def rate(issued: int, cycles: int) -> str:
    return f"{issued / cycles:.3f}" if cycles else "none"


class Totals:
    """The totals of a session by its clock and its log. `waits` are those of the issuing position, and those of all
    reservations together. `begun` is the cycle of the first issue: the first exchange is over then."""

    def __init__(self, clock: Clock, log: str) -> None:
        issuing = clock.issuing
        self.cycles = clock.now if issuing.ended is None else issuing.ended
        self.begun = self.cycles if clock.first is None else clock.first
        self.issued = sum(int(count) for count in re.findall(r"I([0-9]+)", log))
        self.waits = issuing.waits, sum((part.waits for part in clock.parts), Counter[str]())

    @property
    def rate(self) -> str:
        return rate(self.issued, self.cycles)

    @property
    def running(self) -> int:
        """The minor cycles without the first exchange."""
        return self.cycles - self.begun

    @property
    def running_rate(self) -> str:
        """The instructions a minor cycle without the first exchange."""
        return rate(self.issued, self.running)

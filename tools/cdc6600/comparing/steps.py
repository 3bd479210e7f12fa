"""The steps of a log, one by one: exchanges, instructions and peripheral accesses."""

from bisect import bisect_right
from itertools import accumulate

NONE = "none"
# Logs of up to EACH steps are compared after each step. Those of up to MANY are compared after POINTS numbers of steps,
# evenly spaced, and after each of the LAST steps.
EACH, MANY, POINTS, LAST = 600, 10_000, 64, 8


def points_every(whole: int, every: int | None = None) -> list[int]:
    """The numbers of steps after which a log of `whole` steps is compared: each `every` steps, and the whole."""
    return [*(range(every, whole, every) if every else ()), whole]


def usual_points(whole: int) -> list[int]:
    """The numbers of steps after which a log of `whole` steps is compared if nothing else is said.

    The points of a log of more than MANY steps double: 1, 2, 4, 8 .. All together have hardly more steps than the log
    itself, so the time that they take stays that of a few calls."""
    if whole <= EACH:
        return points_every(whole, 1)
    if whole <= MANY:
        spaced = (whole * number // POINTS for number in range(1, POINTS))
        return sorted({*spaced, *range(whole - LAST, whole + 1)})
    return [*(1 << power for power in range((whole - 1).bit_length())), whole]


class Steps:
    """A log by its text. Its steps are numbered from 1."""

    def __init__(self, log: str) -> None:
        self.log = log
        self.entries = [] if log == NONE else log.split(" ")
        self.sizes = [int(entry[1:]) if entry[0] == "I" else 1 for entry in self.entries]
        self.ends = [0, *accumulate(self.sizes)]

    def __len__(self) -> int:
        return self.ends[-1]

    def beginning(self, count: int) -> str:
        """The log of the first steps, so many of them."""
        whole = bisect_right(self.ends, count) - 1
        rest = count - self.ends[whole]
        return " ".join(self.entries[:whole] + [f"I{rest}"] * bool(rest)) or NONE

    def entry(self, number: int) -> str:
        return self.entries[bisect_right(self.ends, number - 1) - 1]

    def instruction(self, number: int) -> int:
        """The number of a step among the instructions."""
        whole = bisect_right(self.ends, number - 1) - 1
        before = sum(size for entry, size in zip(self.entries[:whole], self.sizes) if entry[0] == "I")
        return before + number - self.ends[whole]

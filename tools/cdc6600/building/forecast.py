"""How long a building will still take.

The work of each crate is known from an earlier building, in seconds of a processor. The rest of the plan is gone
through as it will be carried out: crates begin when those below them are proved, and share the processors. The pace of
this machine is how long the crates that are proved took, compared with how long they should have taken.
"""

from pathlib import Path
from typing import TYPE_CHECKING, Container, Mapping

if TYPE_CHECKING:
    from .building import Plan

# The seconds of a processor that each crate took, a line each, from the repository's folder on.
MEASURED = "tools/cdc6600/building/crate-seconds"
# A check by several processes takes so much more of processor time.
MORE = 1.25
# The share of a processor that a crate has at least, though others are more urgent.
LEAST = 0.1
# A crate that takes longer than it should is taken to have this part of its work left.
REST = 0.1
# Work that is less than this is done.
DONE = 1e-6
# After so many crates the estimate rises at most to so much of the one before. If the machine is slower now, the next
# ones rise too.
FIRST = 5
RISE = 1.1


def measured(root: Path) -> dict[str, float]:
    """The measured seconds of each crate by its name, if there are some."""
    file = root / MEASURED
    if not file.is_file():
        return {}
    rows = (line.split() for line in file.read_text(encoding="utf-8").splitlines() if not line.startswith("#"))
    return {name: float(seconds) for name, seconds in rows}


class Forecast:
    """The estimate for a plan on so many processors, with room in memory for so many crates at once."""

    def __init__(self, plan: "Plan", processors: int, room: int) -> None:
        self.plan, self.processors, self.room = plan, processors, room
        self.durations = {name: ended - begun for name, (begun, ended) in self.go_through(plan.work).items()}
        self.begun, self.took, self.shown = dict[str, float](), dict[str, float](), 0

    def begin(self, name: str, now: float) -> None:
        """Notes when a crate begins."""
        self.begun[name] = now

    def minutes_left(self, name: str, proved: Container[str], now: float) -> int:
        """About how long it will take, now that a crate is proved."""
        self.took[name] = now - self.begun.pop(name)
        should = sum(self.durations[it] for it in self.took)
        pace = sum(self.took.values()) / should if should else 1
        work = {it: self.plan.work[it] * self.part_left(it, pace, now) for it in self.plan.crates if it not in proved}
        seconds = pace * max((ended for _, ended in self.go_through(work).values()), default=0)
        minutes = int(seconds / 60) + 1
        self.shown = minutes if len(self.took) <= FIRST else min(minutes, int(RISE * self.shown))
        return self.shown

    def part_left(self, name: str, pace: float, now: float) -> float:
        """Which part of a crate's work is left."""
        if name not in self.begun:
            return 1
        should = pace * self.durations[name]
        return max(REST, 1 - (now - self.begun[name]) / should) if should else REST

    def go_through(self, work: Mapping[str, float]) -> dict[str, tuple[float, float]]:
        """Goes through the plan with this work of the crates that aren't proved: when each begins and when it ends."""
        left, running, begun, now = dict(work), list[str](), dict[str, float](), 0.0
        times: dict[str, tuple[float, float]] = {}
        while left:
            ready = [it for it in left if it not in running and not any(used in left for used in self.plan.uses[it])]
            running += sorted(ready, key=lambda it: self.plan.nice[it])[: max(self.room - len(running), 0)]
            begun.update((it, now) for it in running if it not in begun)
            rates = self.rates(running)
            step = min(left[it] / rates[it] for it in running)
            now += step
            left.update((it, left[it] - rates[it] * step) for it in running)
            for it in [it for it in running if left[it] <= DONE]:
                running.remove(it)
                del left[it]
                times[it] = (begun[it], now)
        return times

    def rates(self, running: list[str]) -> dict[str, float]:
        """The work that each crate does in a second. The most urgent ones may use all processors, the others one."""
        rates, free = dict[str, float](), float(self.processors)
        for it in sorted(running, key=lambda it: self.plan.nice[it]):
            share: float = max(min(1 if self.plan.nice[it] else self.processors, free), LEAST)
            rates[it] = share / MORE if share > 1 else share
            free -= share
        return rates

"""The program with failing_calls.c, whose functions stand in the place of those of the C library: they fail where they
are told to, and count the allocations."""

from __future__ import annotations

import os
from dataclasses import dataclass
from pathlib import Path
from typing import Sequence

from running import Ended, Runner, bytes_of

# A run of these decks and sessions takes a fraction of a second. A run that takes this long won't end, unless the
# machine has more work than this for each of its processors.
MINUTES, BUSY = 0.5, 4
# The status of a run that was killed because it didn't end.
ENDLESS = 124


@dataclass(frozen=True)
class Failing:
    """The program, the library of failing calls, and a folder for the files that this library writes."""

    program: Runner
    library: Path
    folder: Path

    def run(self, words: Sequence[str], text: bytes, call: str = "", **how: str | int | Path) -> Ended:
        """How a run ends. `how` has further settings of failing_calls.c; one without a value isn't made. On a busy
        machine a run without an end is tried again, and gets ten minutes."""
        settings = {f"FAILING_{name.upper()}": str(value) for name, value in how.items() if value}
        environment = {"LD_PRELOAD": str(self.library), "FAILING_CALL": call, **settings}
        came = self.program(*words, given=text, minutes=MINUTES, environment=environment)
        if came.status == ENDLESS and os.getloadavg()[0] > BUSY * len(os.sched_getaffinity(0)):
            return self.program(*words, given=text, environment=environment)
        return came

    def failed(self, words: Sequence[str], text: bytes, call: str, **how: str | int) -> tuple[Ended, bool]:
        """How a run ends, and whether a call failed."""
        mark = self.folder / "mark"
        mark.unlink(missing_ok=True)
        return self.run(words, text, call, mark=mark, **how), mark.exists()

    def allocations(self, words: Sequence[str], text: bytes) -> tuple[Ended, int]:
        """How a run ends, and how often it asks for memory."""
        count = self.folder / "count"
        return self.run(words, text, "memory", count=count), int(count.read_text(encoding="ascii"))

    def allocations_by_line(self, words: Sequence[str], text: bytes) -> tuple[Ended, list[int]]:
        """How a run ends, and for each printed line how often memory was asked for before it was written. The run
        reads a byte a call, so that a session writes each answer before it reads the next event."""
        trace = self.folder / "trace"
        ran = self.run(words, text, "memory", short=1, trace=trace)
        pairs = (line.split() for line in trace.read_text(encoding="ascii").splitlines())
        numbers = {int(at): int(count) for at, count in pairs}
        starts = [0, *(at + 1 for at, byte in enumerate(bytes_of(ran.printed)) if byte == ord("\n"))]
        return ran, [numbers[start] for start in starts[:-1]]

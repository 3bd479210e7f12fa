"""What an event costs under `cdc6600 events`, by the length of the schedule: 1,000, 10,000, 100,000 and 1,000,000
lines.

    tools/bench events [RUNS]

prints for each length the best time of RUNS runs, 15 if nothing is said, and the nanoseconds for a line, where the time
that an empty schedule takes is taken off. Short schedules, the empty one too, are run ten times as often.

The deck's program is a loop of one word, a load and a jump. A turn of the schedule has twelve lines: both instructions
from issue to store, the load through memory, and one issue that is refused while the branch is pending. CDC6600 may
name the program; otherwise it is the one that tools/build-program builds.
"""

import itertools
import sys
import tempfile
from pathlib import Path

from cdc6600.shared.program import program_path

from .racing import HALTED, timed

DECK = (
    "core 256", "at 41", "word 00000100000000000000", "word 00000020000000000000", "at 100",
    "code SA1 B0+10; EQ B0,B0,0", "start 40", "end", "ask 40", "exchange",
)
TURN = (
    "issue", "read increment1", "finish increment1", "store increment1", "accept 0", "bank 8", "return 1", "issue",
    "issue", "read branch", "finish branch", "store branch",
)
LENGTHS, LONG = (1_000, 10_000, 100_000, 1_000_000), 100_000


def session(length: int) -> str:
    """The deck and a schedule of so many lines."""
    lines = (*DECK, *itertools.islice(itertools.cycle(TURN), length), "drain")
    return "".join(f"{line}\n" for line in lines)


def best(program: str, length: int, runs: int, room: Path) -> float:
    """The seconds of the best of so many runs of a schedule of so many lines."""
    text = room / "session"
    text.write_text(session(length), encoding="ascii")
    return min(timed([program, "events"], text, room / "answers", [HALTED]) for _ in range(runs))


def main() -> int:
    runs, program = int(sys.argv[1]) if sys.argv[1:] else 15, program_path()
    with tempfile.TemporaryDirectory() as name:
        room = Path(name)
        empty = best(program, 0, 10 * runs, room)
        for length in LENGTHS:
            took = best(program, length, runs if length >= LONG else 10 * runs, room)
            line = (took - empty) / length * 1e9
            print(f"{length:7} lines: {took:.4f} s, {line:.0f} ns a line", flush=True)
    return 0

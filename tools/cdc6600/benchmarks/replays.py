"""Goes through the same log on the same deck with `cdc6600 replay` and with a plain interpreter in Rust, stops where
their dumps differ in a byte, and prints how their times compare.

    tools/bench replays [RUNS]

takes the best of RUNS runs of each program, 15 if nothing is said. The programs take turns, so that other work of the
machine meets both.

Two ratios are printed for each deck of `tools/bench make-deck`: that of the whole programs, from their start to their
end, and that of what the log costs, where each program's time with an empty log, which is mostly the deck's reading, is
taken off. `rustc` builds the plain interpreter, bench/replaying/plain.rs. CDC6600 may name the program; otherwise it is
the one that tools/build-program builds.
"""

import sys
import tempfile
from pathlib import Path
from typing import Sequence

from cdc6600.shared.program import program_path

from .make_deck import KINDS, deck, log
from .racing import Failed, plain_program, timed


def race(words: Sequence[Sequence[str]], log_text: str, turns: int, room: Path) -> list[float]:
    """Lets both programs go through a log by turns; the best time of each."""
    best, dumps = [float("inf")] * 2, [room / "proved.dump", room / "plain.dump"]
    for _ in range(turns):
        for at, command in enumerate(words):
            best[at] = min(best[at], timed([*command, log_text], room / "deck", dumps[at]))
        if dumps[0].read_bytes() != dumps[1].read_bytes():
            raise Failed(f"the dumps differ, with the log {log_text[:60]}")
    return best


def put(what: str, proved: float, plain: float) -> None:
    """Prints two times in seconds and their ratio."""
    print(f"  {what}: {proved:.4f} s to {plain:.4f} s, {proved / plain:.2f} times", flush=True)


def compare(kind: str, words: Sequence[Sequence[str]], turns: int, room: Path) -> None:
    """Prints how the programs compare on a deck of this kind."""
    (room / "deck").write_bytes(deck(kind))
    empty, whole = race(words, "none", turns, room), race(words, log(kind), turns, room)
    print(f"{kind}: the dumps are the same")
    put("whole programs", *whole)
    put("the log alone", *(took - reading for took, reading in zip(whole, empty)))


def main() -> int:
    turns = int(sys.argv[1]) if sys.argv[1:] else 15
    with tempfile.TemporaryDirectory() as name:
        room = Path(name)
        words = ([program_path(), "replay"], [plain_program("replaying", room)])
        try:
            for kind in KINDS:
                compare(kind, words, turns, room)
        except Failed as fault:
            print(f"{sys.argv[0]}: {fault}", file=sys.stderr)
            return 1
    return 0

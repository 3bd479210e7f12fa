"""Compares the whole run of a deck by `run --sequential` with the replay of as many instructions, on the five decks of
`tools/bench make-deck`; and for those that loop, with the run of the deck that has 64 requests for exchanges too, which
are as many as a deck may have.

    tools/bench sequential [TURNS]

The commands take turns, 15 of each if nothing else is said, and the least processor time of each counts. These ratios
are printed for each deck: of the whole programs; of what an instruction costs, where the time of a replay with an empty
log is taken off, which is mostly the reading of the deck; and of what an instruction costs with and without the
requests. It stops at the first dump that differs. CDC6600 may name the program; otherwise it is the one that
tools/build-program builds.
"""

import os
import subprocess
import sys
import tempfile
from typing import Iterable, Sequence

from cdc6600.limits import MOST_ASKS, MOST_INSTRUCTIONS
from cdc6600.shared.decks import log_of
from cdc6600.shared.program import Program

from .make_deck import INSTRUCTIONS, KINDS, PACKAGES, STRAIGHT, deck, log
from .racing import Failed


class Deck:
    """A deck to be timed: its text, the log of its replay, and how many instructions that has."""

    def __init__(self, kind: str) -> None:
        self.kind, self.bare, self.log, self.is_loop = kind, deck(kind), log(kind), kind not in STRAIGHT
        self.count = MOST_INSTRUCTIONS if self.is_loop else INSTRUCTIONS * len(PACKAGES)
        asks = [(package, INSTRUCTIONS * number) for number, package in enumerate(PACKAGES) if number]
        self.text = self.with_requests([] if self.is_loop else asks)

    def with_requests(self, asks: Iterable[tuple[int, int]]) -> bytes:
        """The deck with these requests, each as its package and the number of instructions before it."""
        lines = "".join(f"ask {package:o} after {after}\n" for package, after in asks)
        return self.bare.removesuffix(b"end\n") + lines.encode() + b"end\n"

    def with_many_requests(self) -> bytes:
        """The deck with as many requests as it may have. The package at 40 isn't among them: after the first exchange
        it has the registers of the booted machine, which runs nothing."""
        others = PACKAGES[1:]
        spread = self.count // (MOST_ASKS + 1)
        return self.with_requests((others[n % len(others)], spread * (n + 1)) for n in range(MOST_ASKS))


class Timed:
    """A command on a deck: what it prints, and the least time that it took."""

    def __init__(self, path: str, words: Sequence[str], text: bytes) -> None:
        self.words, self.best, self.printed = [path, *words], float("inf"), b""
        self.file = tempfile.TemporaryFile()
        self.file.write(text)

    def run(self) -> None:
        self.file.seek(0)
        with subprocess.Popen(self.words, stdin=self.file, stdout=subprocess.PIPE) as process:
            assert process.stdout
            self.printed = process.stdout.read()
            _, status, used = os.wait4(process.pid, 0)
            process.returncode = os.waitstatus_to_exitcode(status)
        self.best = min(self.best, used.ru_utime + used.ru_stime)


def race(turns: int, timed: Iterable[Timed]) -> None:
    for _ in range(turns):
        for it in timed:
            it.run()


def check(what: str, left: Timed, right: Timed) -> None:
    """Stops where two commands print different dumps."""
    if left.printed != right.printed:
        raise Failed(f"{what} prints another dump than the replay of its log")


def compare(path: str, kind: str, turns: int) -> None:
    """Times the commands on a deck and prints the ratios."""
    job = Deck(kind)
    words = ["run", "--sequential", "--budget", str(job.count)]
    empty, replay = (Timed(path, ["replay", it], job.bare) for it in ("none", job.log))
    run = Timed(path, words, job.text)
    race(turns, (empty, replay, run))
    check(kind, run, replay)
    net, replay_net = ((it.best - empty.best) / job.count * 1e9 for it in (run, replay))
    print(f"{kind}: {job.count} instructions, the dumps are the same")
    print(f"  whole programs: {run.best:.4f} s to {replay.best:.4f} s, {run.best / replay.best:.2f} times")
    print(f"  an instruction: {net:.2f} ns to {replay_net:.2f} ns, {net / replay_net:.2f} times", flush=True)
    if job.is_loop:
        compare_requests(path, job, words, turns)


def compare_requests(path: str, job: Deck, words: Sequence[str], turns: int) -> None:
    """The same for the deck with requests and the one without."""
    run, asked = Timed(path, words, job.text), Timed(path, words, job.with_many_requests())
    race(turns, (run, asked))
    replay = Timed(path, ["replay", log_of(asked.printed) or ""], job.with_many_requests())
    replay.run()
    check(f"{job.kind} with requests", asked, replay)
    print(f"  with {MOST_ASKS} requests: {asked.best:.4f} s to {run.best:.4f} s, {asked.best / run.best:.2f} times")


def main() -> int:
    turns = int(sys.argv[1]) if sys.argv[1:] else 15
    program = Program()
    program.run(["--version"])
    for kind in KINDS:
        try:
            compare(program.path, kind, turns)
        except Failed as fault:
            print(fault, file=sys.stderr)
            return 1
    return 0

"""Runs the same deck by the threads of `cdc6600 run` and by those of a plain Rust program, in its two forms: threads
that yield between tries, and threads that sleep on condition variables.

    tools/bench threads [TURNS [BUDGET [PROCESSORS [BUSY]]]]

For each kind of deck of `tools/bench make-deck` but `repeating` it prints, for each program, the microseconds that an
instruction takes, how that compares with `run`, and how many switches between threads and how many calls that wait for
a lock or wake a thread which does (Linux's `futex`) an instruction takes. The latter are counted by `perf`, in a run of
its own; without it there is a dash.

The programs take turns, 12 where nothing is said, with 100,000 instructions each, so that other work of the machine
meets all of them; the shortest time of each counts, and the switches of that run. From each time that of a run of one
instruction, which is mostly the deck's reading, is taken off. `threads 12 100000 0` does so on processor 0 alone, by
`taskset`, and `threads 3 10000 0,1 4` on two processors on which four other processes count without end meanwhile.

Each program's log is replayed by `cdc6600 replay`, which has to print the same dump, and whose time is printed too:
that is one instruction at a time, in one thread. `rustc` builds the plain program, bench/running/plain.rs. CDC6600 may
name the other one; else it is the one that tools/build-program builds.
"""

import argparse
import contextlib
import os
import re
import shutil
import subprocess
import sys
import tempfile
import time
from pathlib import Path
from typing import Mapping, Sequence

from cdc6600.shared.decks import log_of
from cdc6600.shared.program import program_path

from .make_deck import KINDS, deck
from .racing import RUNNING, Failed, plain_program

# What `repeating` would show, `mixed` shows.
SHOWN = tuple(kind for kind in KINDS if kind != "repeating")
FORMS = ("run", "yield", "sleep", "replay")
LOCKS = "syscalls:sys_enter_futex"


def arguments() -> argparse.Namespace:
    """What the command line asks for, with the words that keep a program on the processors."""
    parser = argparse.ArgumentParser(description=__doc__, formatter_class=argparse.RawDescriptionHelpFormatter)
    parser.add_argument("turns", metavar="TURNS", type=int, nargs="?", default=12)
    parser.add_argument("budget", metavar="BUDGET", type=int, nargs="?", default=100_000)
    parser.add_argument("processors", metavar="PROCESSORS", nargs="?")
    parser.add_argument("busy", metavar="BUSY", type=int, nargs="?", default=0)
    given = parser.parse_args()
    given.pinned = ["taskset", "-c", given.processors] if given.processors else []
    return given


class Race:
    """The programs on one deck."""

    def __init__(self, given: argparse.Namespace, kind: str, room: Path, programs: Mapping[str, str]) -> None:
        self.given, self.kind, self.programs = given, kind, programs
        self.deck, self.dump = room / "deck", room / "dump"
        self.deck.write_bytes(deck(kind))

    def words(self, form: str, budget: int) -> list[str]:
        """The words by which a form makes so many instructions."""
        if form == "run":
            return [*self.given.pinned, self.programs["run"], "run", "--budget", str(budget)]
        if form == "replay":
            return [*self.given.pinned, self.programs["run"], "replay", f"E40 I{budget}"]
        return [*self.given.pinned, self.programs["plain"], form, str(budget)]

    def make(self, words: Sequence[str]) -> tuple[float, int]:
        """Runs it: the seconds that it took, and its switches between threads."""
        with self.deck.open("rb") as deck, self.dump.open("wb") as dump:
            begun = time.perf_counter()
            process = subprocess.Popen(words, stdin=deck, stdout=dump)
            _, status, used = os.wait4(process.pid, 0)
            took = time.perf_counter() - begun
        process.returncode = os.waitstatus_to_exitcode(status)
        if process.returncode not in (0, RUNNING):
            raise Failed(f"{' '.join(words)} ended with status {process.returncode}")
        return took, used.ru_nvcsw + used.ru_nivcsw

    def replays(self, form: str) -> None:
        """Whether the log of the last dump replays to it."""
        printed = self.dump.read_bytes()
        words = [self.programs["run"], "replay", log_of(printed) or ""]
        with self.deck.open("rb") as deck:
            again = subprocess.run(words, stdin=deck, capture_output=True, check=False)
        if again.stdout != printed:
            raise Failed(f"{self.kind}: the log of {form} doesn't replay to its dump")

    def lock_calls(self, form: str) -> str:
        """How many calls for a lock an instruction takes, as text."""
        if not shutil.which("perf"):
            return "-"
        with self.deck.open("rb") as deck:
            words = ["perf", "stat", "-x", ",", "-e", LOCKS, *self.words(form, self.given.budget)]
            ran = subprocess.run(words, stdin=deck, capture_output=True, check=False)
        counted = re.search(rb"^(\d+),.*futex", ran.stderr, re.MULTILINE)
        return f"{int(counted.group(1)) / self.given.budget:.2f}" if counted else "-"

    def print_times(self) -> None:
        short, long, budget = dict[str, tuple[float, int]](), dict[str, tuple[float, int]](), self.given.budget
        for _ in range(self.given.turns):
            for form in FORMS:
                for best, many in ((short, 1), (long, budget)):
                    made = self.make(self.words(form, many))
                    best[form] = min(best.get(form, made), made)
                self.replays(form)
        print(f"{self.kind}: each log replays to its dump")
        times = {form: (long[form][0] - short[form][0]) / budget * 1e6 for form in FORMS}
        for form in FORMS:
            switches = max(0, long[form][1] - short[form][1]) / budget
            print(
                f"  {form}: {times[form]:.2f} us an instruction, {times[form] / times['run']:.2f} times that of run;"
                f" {switches:.2f} switches, {self.lock_calls(form)} calls for a lock",
                flush=True,
            )


def main() -> int:
    given = arguments()
    with tempfile.TemporaryDirectory() as name, contextlib.ExitStack() as others:
        room = Path(name)
        programs = {"run": program_path(), "plain": plain_program("running", room)}
        for _ in range(given.busy):
            other = others.enter_context(subprocess.Popen([*given.pinned, sys.executable, "-c", "while True: pass"]))
            others.callback(other.kill)
        try:
            for kind in SHOWN:
                Race(given, kind, room, programs).print_times()
        except Failed as fault:
            print(f"{sys.argv[0]}: {fault}", file=sys.stderr)
            return 1
    return 0

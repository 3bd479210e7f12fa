"""Runs decks again and again by threads.

    tools/bench soak [TIMES]

runs each deck TIMES times on all cores and TIMES times on one, 100 if nothing is said. Each run has to end in 60
seconds with an exit status of a machine at its end, the log that it prints has to replay to the same dump with the same
status, and no process of it may be left. The decks are those of `decks/` that are accepted and one of each kind of
`tools/bench make-deck`, with at most 2,000 instructions a run.

Then each deck of `decks/` is run with ever less memory, down to what the program needs to begin at all: so a thread
after the other can't be started. Such a run has to end as before, or with status 6 and the line of E21, and then
nothing else is printed.

It prints a line for each fault, and how many runs there were. It isn't in the gate, since it takes minutes. CDC6600 may
name the program; otherwise it is the one that tools/build-program builds.
"""

import os
import signal
import subprocess
import sys
from subprocess import PIPE
from typing import Mapping, Sequence

from cdc6600.shared.decks import decks, log_of
from cdc6600.shared.program import Program, Ran, program_path

from .make_deck import KINDS, deck
from .racing import ENDS

SECONDS, BUDGET = 60, 2_000
# The status of a run without enough memory, and what that says.
STARVED, TOLD = 6, b"cdc6600: E21 out of memory\n"
# The words before the program: none for a run on all cores, and those for one on one core.
CORES: tuple[tuple[str, ...], ...] = ((), ("taskset", "-c", "0"))
# The kilobytes of memory that a run may have: the most, the least, and the step between them.
MOST, LEAST, STEP = 100_000, 8_000, 1_500


def limited(memory: int) -> tuple[str, ...]:
    """The words that run a command with so many kilobytes of memory: `sh` sets the bound for what it becomes."""
    return ("sh", "-c", 'ulimit -v "$1" && shift && exec "$@"', "sh", str(memory))


class Soak:
    """The runs: how many there were, how many were refused for want of memory, and whether one had a fault."""

    def __init__(self) -> None:
        self.program = Program(program_path())
        self.runs, self.refused, self.has_failed = 0, 0, False

    def fault(self, name: str, what: str) -> None:
        print(f"soak: {name}: {what}", file=sys.stderr, flush=True)
        self.has_failed = True

    def run(self, name: str, text: bytes, before: Sequence[str] = ()) -> Ran | None:
        """Runs a deck, by the words before the program if there are any; how it ended, or None if it didn't."""
        self.runs += 1
        words = [*before, self.program.path, "run", "--budget", str(BUDGET)]
        with subprocess.Popen(words, start_new_session=True, stdin=PIPE, stdout=PIPE, stderr=PIPE) as process:
            try:
                printed, told = process.communicate(text, SECONDS)
            except subprocess.TimeoutExpired:
                os.killpg(process.pid, signal.SIGKILL)
                self.fault(name, f"no end in {SECONDS} seconds")
                return None
        if is_group(process.pid):
            self.fault(name, "a process is left")
        return Ran(process.returncode, printed, told)

    def judge(self, name: str, text: bytes, ran: Ran) -> None:
        """Tells a fault if a run didn't end as a machine does, or if its log doesn't lead there."""
        if ran.status not in ENDS:
            self.fault(name, f"status {ran.status}: {ran.told.decode(errors='replace')}")
            return
        log = log_of(ran.printed) or ""
        again = self.program.replay(log, text)
        if again.status != ran.status:
            self.fault(name, f"the replay of {log} ends with another status than {ran.status}")
        if again.printed != ran.printed:
            self.fault(name, f"the replay of {log} prints another dump")

    def judge_starved(self, name: str, text: bytes, ran: Ran) -> None:
        """As `judge`, or the run was refused for want of memory."""
        if ran.status != STARVED:
            self.judge(name, text, ran)
            return
        self.refused += 1
        if ran.told != TOLD:
            self.fault(name, f"status {STARVED}, and {ran.told.decode(errors='replace')}")
        if ran.printed:
            self.fault(name, f"status {STARVED}, and a dump is printed")

    def soak(self, texts: Mapping[str, bytes], times: int) -> None:
        """Runs the decks on all cores and on one."""
        for _ in range(times):
            for name, text in texts.items():
                for before in CORES:
                    ran = self.run(name, text, before)
                    if ran:
                        self.judge(name, text, ran)

    def starve(self, texts: Mapping[str, bytes]) -> None:
        """Runs the decks with ever less memory."""
        for name, text in texts.items():
            for memory in range(MOST, LEAST, -STEP):
                ran = self.run(name, text, limited(memory))
                if ran:
                    self.judge_starved(name, text, ran)


def is_group(number: int) -> bool:
    try:
        os.killpg(number, 0)
    except ProcessLookupError:
        return False
    return True


def main() -> int:
    times, soak = int(sys.argv[1]) if sys.argv[1:] else 100, Soak()
    stored = {str(it): it.text for it in decks() if not it.told}
    soak.soak(stored | {kind: deck(kind) for kind in KINDS}, times)
    print(f"{soak.runs} runs", flush=True)
    soak.runs = 0
    soak.starve(stored)
    print(f"{soak.runs} runs with little memory, {soak.refused} of them refused")
    return 1 if soak.has_failed else 0

"""Checks what the program shows at a terminal while a run or a replay takes long: from the third second on, for how
many seconds it has gone on. It clears this line at the end. A short run shows nothing, nor does one without a terminal
or whose deck is typed, nor does a session.

A long run here is one that waits for the end of its deck. When those that are to show something have shown their sixth
second, all are given the ends of their decks. Their terminals become narrower after the third second. A run that issues
instructions without a pause has to show its third second too, if it doesn't end before. Nothing may be shown before the
third second, by a clock that begins before the run.

A run that Ctrl-C ends leaves its line behind the `^C` of the terminal, and the terminal as it was.

All these runs are made at once, which takes six seconds, and for three of them most of the processors.

Run it after a change of `progress` in `operator_main`.
"""

from __future__ import annotations

import os
import re
import signal
import time
from concurrent.futures import Future, ThreadPoolExecutor
from dataclasses import dataclass
from pathlib import Path
from threading import Barrier
from typing import Iterator

import pexpect
import pytest
from running import Runner
from terminal import Terminal

from cdc6600.shared.decks import FIRST, deck, session
from cdc6600.shared.waiting import MINUTES, wait_until

LAST_LINE, INTERRUPT, CLEARED = b"end\n", b"\x03", b"\x1b[K"
DECK = deck("two-adds").text.removesuffix(LAST_LINE)
SESSION = session("conflicts").text.partition(b"\n" + LAST_LINE)[0] + b"\n" + LAST_LINE
# What is shown: lines of one second after the other, and then the line is cleared or interrupted.
LINE = rb"   cdc6600: (\d+) s\r"
SHOWN = re.compile(rb"(?:%s)+(\x1b\[K|\^C|)" % LINE)
# The second that is waited for, and the seconds before which nothing may be shown: the clocks of the program and of
# this test may differ a little.
AWAITED, QUIET = 6, 2.9
# The lines and columns of a terminal after the third second.
NARROW = 10, 40


@dataclass(frozen=True)
class Case:
    """A run of the program: its words and streams, its input and what ends it, and whether something is shown. A deck
    that isn't typed is in a file of the run's folder."""

    words: str
    streams: str = "<deck >/dev/null"
    text: bytes = DECK
    end: bytes = LAST_LINE
    is_shown: bool = False


CASES = {
    "a long run without a terminal": Case("run", "<deck >/dev/null 2>told"),
    "a long run of a deck that is typed": Case("run", ">/dev/null"),
    "a long session": Case("events", text=SESSION),
    "a long replay at a terminal": Case("replay none", is_shown=True),
    "a long run at a terminal": Case("run", is_shown=True),
    "an interrupted run": Case("run", "<deck", end=INTERRUPT, is_shown=True),
    "a run that issues all the time": Case(
        "run --budget 10000000", text=deck("endless").text, end=b"", is_shown=True
    ),
}


class Run:
    """A run at a terminal of its own: what it has shown so far, and after how many seconds the first of it came. The
    seconds begin before the run."""

    def __init__(self, program: Runner, case: Case, folder: Path) -> None:
        self.case, self.told, self.first = case, folder / "told", QUIET
        os.mkfifo(folder / "deck")
        self.deck, self.begun = os.open(folder / "deck", os.O_RDWR), time.monotonic()
        command = f"exec {program.path} {case.words} {case.streams}"
        self.terminal = Terminal("sh", "-c", command, cwd=folder, echo="deck" in case.streams)
        self.give(case.text)

    @property
    def shown(self) -> bytes:
        """What it has shown."""
        return self.terminal.written + (self.told.read_bytes() if self.told.exists() else b"")

    def give(self, text: bytes) -> None:
        """Gives it a text, by its terminal if the deck is typed or interrupted."""
        if "<deck" in self.case.streams and text != INTERRUPT:
            os.write(self.deck, text)
        else:
            self.terminal.send(text)

    def go(self, barrier: Barrier) -> "Run":
        """Goes through the run as its case says. A long run waits for the others before its end."""
        if self.case.is_shown and self.terminal.expect([LINE, pexpect.EOF]) == 0:
            self.first = time.monotonic() - self.begun
            self.terminal.setwinsize(*NARROW)
        if self.case.end == LAST_LINE:
            if self.case.is_shown:
                self.terminal.expect_exact([f"{AWAITED} s", pexpect.EOF])
            barrier.wait(60 * MINUTES)
        if self.case.end:
            self.give(self.case.end)
            self.terminal.expect_exact(pexpect.EOF)
        self.after = self.terminal.settings
        self.terminal.close(force=True)
        os.close(self.deck)
        return self


@pytest.fixture(scope="module")
def runs(program: Runner, tmp_path_factory: pytest.TempPathFactory) -> Iterator[dict[str, "Future[Run]"]]:
    """All runs, which are made at once."""
    begun = {name: Run(program, case, tmp_path_factory.mktemp("run")) for name, case in CASES.items()}
    barrier = Barrier(sum(case.end == LAST_LINE for case in CASES.values()))
    with ThreadPoolExecutor(len(begun)) as pool:
        yield {name: pool.submit(run.go, barrier) for name, run in begun.items()}


@pytest.mark.parametrize("name, case", CASES.items(), ids=CASES)
def test_run(runs: dict[str, "Future[Run]"], name: str, case: Case) -> None:
    run = runs[name].result()
    status, shown = run.terminal.exitstatus, run.shown
    seconds = [int(it) for it in re.findall(LINE, shown)]
    # A run that issues all the time may end before it has to show something.
    assert SHOWN.fullmatch(shown) if case.is_shown and (case.end or shown or status is None) else not shown, shown
    assert seconds == [*range(3, 3 + len(seconds))] and run.first >= QUIET
    is_left = seconds and case.end != LAST_LINE and not shown.endswith(CLEARED)
    left = f"{'^C' if case.end == INTERRUPT else '  '} cdc6600: {seconds[-1]} s" if is_left else ""
    assert run.terminal.lines == [left, *[""] * (len(run.terminal.lines) - 1)]
    assert run.after == run.terminal.settings_before
    ended = {LAST_LINE: (0, None), INTERRUPT: (None, signal.SIGINT)}
    assert not case.end or (status, run.terminal.signalstatus) == ended[case.end]


def test_short_run(program: Runner) -> None:
    """A run that takes longer is made once more."""
    def tried() -> list[bytes]:
        begun = time.monotonic()
        shown = pexpect.run(f"sh -c 'exec {program.path} run <{FIRST} >/dev/null'")
        return [shown] if time.monotonic() - begun < QUIET else []

    assert wait_until(tried, f"a short run that takes less than {QUIET} seconds") == [b""]

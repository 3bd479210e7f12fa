"""Runs a deck by threads on two processors on which four other processes count without end, and on one of them. What a
thread waits for comes thousands of times, and each time it has to get its turn from the others soon.

The time that a run takes depends on whatever else the machine does. So what counts is the processor time of the run and
of the counting processes together: on a processor that other work shares with them, they get less of it. Beside the
four, on two processors, an instruction takes at most 100 microseconds, 200 of processor time. A thread that gives its
turn away while it waits takes milliseconds. The limit lies between the two, ten times above the first: a millisecond of
each processor for an instruction. So a machine that is ten times slower keeps it.

Run it after a change of how threads wait.
"""

from __future__ import annotations

import os
import resource
import subprocess
import sys
from contextlib import ExitStack

import pytest
from running import Runner

from cdc6600.shared.decks import deck

BUDGET, OTHERS, USED_UP = 5_000, 4, 5
# The seconds of each processor for an instruction.
MOST = 0.001
COUNTING = [sys.executable, "-c", "while True: pass"]


def processor_seconds() -> float:
    """The processor time of all processes that were started here and have ended."""
    used = resource.getrusage(resource.RUSAGE_CHILDREN)
    return used.ru_utime + used.ru_stime


@pytest.mark.parametrize("many", (2, 1))
def test_other_processes(program: Runner, many: int) -> None:
    every, before = os.sched_getaffinity(0), processor_seconds()
    with ExitStack() as stack:
        stack.callback(os.sched_setaffinity, 0, every)
        os.sched_setaffinity(0, sorted(every)[:many])
        for _ in range(OTHERS):
            stack.callback(stack.enter_context(subprocess.Popen(COUNTING)).kill)
        ran = program("run", "--budget", str(BUDGET), given=deck("endless").text)
    assert (ran.status, ran.told) == (USED_UP, "")
    assert processor_seconds() - before <= MOST * many * BUDGET

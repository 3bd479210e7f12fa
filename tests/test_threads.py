"""Checks that a run by threads has ten threads, and needs each of them. Its deck uses all seven units, loads, and asks
for an exchange at any time.

The program starts nine threads: one for each unit, the storage worker and the asking thread. In the case of a thread,
held_thread.c keeps it from beginning. The main thread must still wait for another thread when three other runs have
ended. It would wait no longer if another thread had done all the work: at the end of a run it sleeps until all threads
have ended, and nothing wakes it meanwhile. When the held thread may begin, the run must end as the others did.

Run it after a change of which threads there are, and of what they do.
"""

from __future__ import annotations

import os
import subprocess
from pathlib import Path
from typing import Any

import pytest
from running import Runner, library_of

from cdc6600.shared.waiting import finish, input_of, wait_until

# A package with P 0, RA 100 and FL 20 for the first exchange, and one for the exchange that is asked for.
DECK = b"""core 256
at 40
word 0
word 00000100000000000000
word 00000020000000000000
at 60
word 0
word 00000100000000000000
word 00000020000000000000
at 100
code BX1 X2; LX3 1; IX4 X2+X7; CX5 X2
code SA1 B0+7; SB3 B0+B0; NO
code JP B0+0
start 40
ask 60 free
end
"""
WORDS, USED_UP = ("run", "--budget", "2000"), 5
# The threads that the main thread starts, in this order.
STARTED = (
    "Branch", "Boolean", "Shift", "Long Add", "Divide", "Increment 1", "Increment 2", "the storage worker",
    "the asking thread",
)
# How many runs without a held thread end first, and how often the main thread of the other run waits after that.
RUNS, WAITS = 3, 100


@pytest.fixture(scope="session")
def library(tmp_path_factory: pytest.TempPathFactory) -> Path:
    """The library that holds a thread."""
    return library_of("held_thread.c", tmp_path_factory.mktemp("library"))


def waits_of(process: subprocess.Popen[bytes]) -> int:
    """How often the main thread of a process has waited."""
    status = Path(f"/proc/{process.pid}/task/{process.pid}/status").read_text(encoding="ascii")
    return int(status.partition("voluntary_ctxt_switches:")[2].split()[0])


@pytest.mark.parametrize("thread", STARTED)
def test_held_thread(program: Runner, library: Path, thread: str) -> None:
    held, release = os.pipe()
    number = str(STARTED.index(thread) + 1)
    how = {**os.environ, "LD_PRELOAD": str(library), "HELD_THREAD": number, "HELD_UNTIL": str(held)}
    begin: dict[str, Any] = {"env": how, "pass_fds": [held], "stdout": subprocess.DEVNULL}
    with open(release, "wb") as held_back, input_of(DECK) as deck:
        with subprocess.Popen([program.path, *WORDS], stdin=deck, **begin) as process:
            os.close(held)
            try:
                assert [program(*WORDS, given=DECK).status for _ in range(RUNS)] == [USED_UP] * RUNS
                before = waits_of(process)
                # The number of threads is that of a run which hasn't ended.
                assert len(os.listdir(f"/proc/{process.pid}/task")) == len(STARTED) + 1
                wait_until(lambda: waits_of(process) >= before + WAITS, f"a run to wait for {thread}", minutes=1)
                held_back.close()
                finish(process, f"the run in which {thread} was held")
            finally:
                process.kill()
    assert process.returncode == USED_UP

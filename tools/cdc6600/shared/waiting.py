"""Waiting for something, with a limit that only something that never happens exceeds.

No check judges by how long something takes, since other work may hold up whatever it tries. It waits for what it
expects, ten minutes if nothing else is said, and then says what it waited for. A time in which the waiting process is
stopped itself doesn't count.
"""

import os
import select
import subprocess
import time
from contextlib import contextmanager, suppress
from pathlib import Path
from typing import Any, AnyStr, BinaryIO, Callable, Iterator, Sequence, TypeVar

MINUTES = 10
# The seconds between two tests of a condition, and between two looks at a process.
PAUSE, LOOK = 0.02, 10
Awaited = TypeVar("Awaited")


class Missing(Exception):
    """Something that was waited for and didn't happen. Its text says what."""


class Clock:
    """Counts the seconds in which this process isn't stopped: from one reading to the next so many at most."""

    def __init__(self, most: float = 1) -> None:
        self.most, self.counted, self.last = most, 0.0, time.monotonic()

    def read(self) -> float:
        """The seconds since it was made."""
        before, self.last = self.last, time.monotonic()
        self.counted += min(self.last - before, self.most)
        return self.counted


def wait_until(holds: Callable[[], Awaited | None], what: str | Callable[[], str], minutes: float = MINUTES,
               pause: Callable[[float], object] = time.sleep) -> Awaited:
    """Waits until a condition holds; its value. Between two tests of it `pause` is called with a number of seconds.

    Raises Missing if it doesn't hold within so many minutes. `what` says what is waited for: a text, or a function that
    is called for it at the end, when more is known."""
    clock = Clock()
    while True:
        # The condition is tested once more after the limit.
        is_last = clock.read() > 60 * minutes
        found = holds()
        if found:
            return found
        if is_last:
            raise Missing(f"waited {minutes} minutes for {what() if callable(what) else what}")
        pause(PAUSE)


def wait_for_stream(what: str, reading: Sequence[int] = (), writing: Sequence[int] = ()) -> None:
    """Waits until one of some streams can be read or written.

    Raises Missing if none can within MINUTES."""
    def ready(seconds: float) -> bool:
        return any(select.select(reading, writing, [], seconds))

    wait_until(lambda: ready(0), what, pause=ready)


@contextmanager
def input_of(text: bytes) -> Iterator[BinaryIO]:
    """A file in memory that has an input, for a process to read. Nothing has to be written while the process runs, so
    no thread is needed, which the system might refuse."""
    with open(os.memfd_create("input"), "w+b") as file:
        file.write(text)
        file.seek(0)
        yield file


def finish(process: subprocess.Popen[AnyStr], what: str, minutes: float = MINUTES) -> tuple[AnyStr, AnyStr]:
    """Waits for the end of a process; what it wrote to its pipes.

    Raises Missing if it doesn't end within so many minutes, and kills it then."""
    clock = Clock(LOOK)
    try:
        while clock.read() < 60 * minutes:
            with suppress(subprocess.TimeoutExpired):
                return process.communicate(timeout=LOOK)
    finally:
        if process.poll() is None:
            process.kill()
            process.wait()
    raise Missing(f"waited {minutes} minutes for the end of {what}")


def run(words: Sequence[str | Path], minutes: float = MINUTES, capture_output: bool = False,
        **how: Any) -> subprocess.CompletedProcess[Any]:
    """Runs a command to its end, with further arguments for `Popen`; how it ended, as `subprocess.run` has it.

    Raises Missing if it doesn't end within so many minutes."""
    if capture_output:
        how.update(stdout=subprocess.PIPE, stderr=subprocess.PIPE)
    with subprocess.Popen(words, **how) as process:
        printed, told = finish(process, " ".join(map(str, words)), minutes)
    return subprocess.CompletedProcess(words, process.returncode, printed, told)


def faults_found(work: Callable[[], list[str]]) -> list[str]:
    """The faults that a call returns, or the one that it waited for something in vain."""
    try:
        return work()
    except Missing as fault:
        return [str(fault)]

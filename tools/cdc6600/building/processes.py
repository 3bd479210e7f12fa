"""Runs commands, all of which end when the run is ended."""

import os
import signal
import subprocess
import threading
from contextlib import contextmanager
from dataclasses import dataclass
from pathlib import Path
from typing import Iterator, TextIO

from cdc6600.crates.table import Unreadable

# The signals that end a run.
ENDING = (signal.SIGTERM, signal.SIGHUP, signal.SIGINT)


@dataclass
class Ran:
    """How a command ended, what it said, and the seconds of processor time that it and all that it started took."""

    status: int
    said: str
    seconds: float


class Running:
    """The commands that run, each with the processes that it started, so that all end together, and no new one
    begins."""

    def __init__(self) -> None:
        self.lock, self.children, self.is_ended = threading.Lock(), set[subprocess.Popen[bytes]](), False

    def start(self, words: list[str], folder: Path, said: TextIO) -> subprocess.Popen[bytes]:
        with self.lock:
            if self.is_ended:
                raise Unreadable("the run was ended")
            child = subprocess.Popen(words, cwd=folder, start_new_session=True, stdin=subprocess.DEVNULL, stdout=said,
                                     stderr=subprocess.STDOUT)
            self.children.add(child)
            return child

    def forget(self, child: subprocess.Popen[bytes]) -> None:
        with self.lock:
            self.children.discard(child)

    def end(self) -> None:
        with self.lock:
            self.is_ended = True
            for child in self.children:
                os.killpg(child.pid, signal.SIGTERM)


RUNNING = Running()


@contextmanager
def put_off() -> Iterator[None]:
    """Delays the signals that end the run until the block is left. Only the main thread handles signals."""
    if threading.current_thread() is not threading.main_thread():
        yield
        return
    caught = list[int]()
    before = {number: signal.signal(number, lambda it, _: caught.append(it)) for number in ENDING}
    try:
        yield
    finally:
        for number, handler in before.items():
            signal.signal(number, handler)
        if caught:
            signal.raise_signal(caught[0])


def run(words: list[str], folder: Path) -> Ran:
    """Runs a command to its end, with what it says in the folder's file `said`."""
    with open(folder / "said", "w+", errors="replace", encoding="utf-8") as said:
        child = None
        try:
            # A signal between the start of the command and this assignment would leave the command running.
            with put_off():
                child = RUNNING.start(words, folder, said)
            _, ended, used = os.wait4(child.pid, 0)
            child.returncode = os.waitstatus_to_exitcode(ended)
        except BaseException:
            # A signal ends this process. The command ends first, so that it writes nothing more into the folder.
            RUNNING.end()
            if child:
                child.wait()
            raise
        finally:
            if child:
                RUNNING.forget(child)
        said.seek(0)
        return Ran(child.returncode, said.read(), used.ru_utime + used.ru_stime)


def stop_all() -> None:
    """Ends the commands that this process started."""
    RUNNING.end()

"""An emulator's command, run on a deck with a log, with limits of time and of what it prints."""

import os
import selectors
import shlex
import signal
import subprocess
import tempfile
import threading
from pathlib import Path

from cdc6600.shared.ending import why_not_started
from cdc6600.shared.program import words_and_input
from cdc6600.shared.waiting import Clock

from .faults import IS_OVER, LEAVING, BadInput, Failure, Slow

# The statuses that go with a dump, as those of `cdc6600 replay`.
DUMPED = (0, 3, 4, 5)
# How many bytes are taken at once, how many are kept of what it says, and for how many seconds at most nobody looks
# whether the tool is over.
PART, SAID, LOOK = 65536, 4096, 0.2


class Reading:
    """What a process writes to standard output and standard error, up to its end, to a moment and to a number of bytes.
    It waits for the end by a descriptor of the process, whose number stays its own until it is ended with its group."""

    def __init__(self, process: subprocess.Popen[bytes], seconds: float, most: int) -> None:
        self.seconds, self.most, self.clock = seconds, most, Clock()
        self.printed, self.said, self.process = bytearray(), bytearray(), os.pidfd_open(process.pid)
        assert process.stdout and process.stderr
        self.streams = selectors.DefaultSelector()
        self.streams.register(self.process, selectors.EVENT_READ)
        self.streams.register(process.stdout, selectors.EVENT_READ, (self.printed, most + 1))
        self.streams.register(process.stderr, selectors.EVENT_READ, (self.said, SAID))

    @property
    def left(self) -> float:
        """The seconds that are left. Those in which the tool itself is stopped don't count."""
        return 0 if IS_OVER.is_set() else max(0, self.seconds - self.clock.read())

    def take(self, key: selectors.SelectorKey) -> None:
        """Takes what a stream has, and gives it up at its end. The descriptor of a process has nothing but its end."""
        part = b""
        if key.data:
            text, most = key.data
            part = os.read(key.fd, PART)
            text += part[: most - len(text)]
        if not part:
            self.streams.unregister(key.fileobj)

    def look(self) -> None:
        """Takes what the streams have, or waits for it a while."""
        for key, _ in self.streams.select(min(self.left, LOOK)):
            self.take(key)

    def to_end(self) -> None:
        """Reads to the end of both streams and of the process.

        Raises Failure where it doesn't come, or comes after too many bytes."""
        try:
            while self.streams.get_map() and self.left and len(self.printed) <= self.most:
                self.look()
            is_ended = not self.streams.get_map()
        finally:
            self.streams.close()
            os.close(self.process)
        if len(self.printed) > self.most:
            raise Failure(f"prints more than {self.most} bytes, which is no dump")
        if not is_ended:
            raise Slow(self.seconds)

    @property
    def last_said(self) -> str:
        """The last line that it wrote to standard error, but for a note how to see more."""
        lines = self.said.decode(errors="replace").splitlines()
        told = [line for line in lines if line.strip() and not line.startswith("note: ")]
        return "".join(f": {line.strip()[:120]}" for line in told[-1:])


def end_group(process: subprocess.Popen[bytes]) -> None:
    """Ends a process with all that it started."""
    try:
        os.killpg(process.pid, signal.SIGKILL)
    except ProcessLookupError:
        pass
    process.wait()


class Emulator:
    """A command that reads a deck on standard input, goes through the log that is its last argument or, if that is
    `--log-follows`, the line after the deck, and prints the dump. A call of it may take so many seconds, and so many
    more for each thousand steps of the log."""

    def __init__(self, command: str, seconds: float, slope: float) -> None:
        self.command, self.seconds, self.slope = command, seconds, slope
        self.calls, self.counting = 0, threading.Lock()
        try:
            self.words = shlex.split(command)
        except ValueError as fault:
            raise BadInput(f"the command {command}: {fault}") from None
        if not self.words:
            raise BadInput("the command has no word")

    def start(self, log: str, deck: Path) -> subprocess.Popen[bytes]:
        """Starts it on the file of a deck, with a log. It begins a session, and so a group of processes, by which all
        that it starts can be ended."""
        try:
            words, text = words_and_input(log, deck.read_bytes())
            with tempfile.TemporaryFile() as given:
                given.write(text)
                given.seek(0)
                return subprocess.Popen([*self.words, *words], stdin=given, stdout=subprocess.PIPE,
                                        stderr=subprocess.PIPE, start_new_session=True)
        except OSError as fault:
            raise BadInput(f"the command {self.command}: {why_not_started(fault)}") from None

    def limit(self, steps: int) -> float:
        """The seconds that a call with so many steps may take."""
        return self.seconds + steps // 1000 * self.slope

    def printed(self, log: str, deck: Path, most: int, steps: int) -> bytes:
        """What it prints for a log of so many steps, at most so many bytes.

        Raises Slow where it doesn't end in time, and Failure where it dies or prints nothing."""
        with self.counting:
            self.calls += 1
        with LEAVING.later(), self.start(log, deck) as process:
            try:
                reading = Reading(process, self.limit(steps), most)
                reading.to_end()
            finally:
                end_group(process)
        if process.returncode < 0:
            raise Failure(f"is ended by {name_of(-process.returncode)}{reading.last_said}")
        if process.returncode not in DUMPED:
            raise Failure(f"ends with status {process.returncode}{reading.last_said}")
        if not reading.printed:
            raise Failure(f"prints nothing{reading.last_said}")
        return bytes(reading.printed)


def name_of(number: int) -> str:
    return signal.Signals(number).name if number in set(signal.Signals) else f"signal {number}"

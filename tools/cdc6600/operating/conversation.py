"""The program under `events`, asked one event after another."""

import os
import subprocess
from subprocess import PIPE
from typing import NoReturn, Sequence

from cdc6600.drawing.following import Fault
from cdc6600.shared.ending import why_not_started
from cdc6600.shared.waiting import Missing, wait_for_stream

# What a pipe takes at once, so that a write never waits.
PIECE = 4096


class Conversation:
    """A run of `cdc6600 events` that has read a deck, and answers each event before the next one is asked."""

    def __init__(self, path: str, deck: str) -> None:
        self.path, self.came = path, b""
        try:
            # An interrupt of this script doesn't reach a process that has a session of its own.
            self.process = subprocess.Popen([path, "events"], bufsize=0, stdin=PIPE, stdout=PIPE, stderr=PIPE,
                                            start_new_session=True)
        except OSError as fault:
            raise Fault(path, why_not_started(fault)) from None
        assert self.process.stdin and self.process.stdout
        self.input, self.output = self.process.stdin.fileno(), self.process.stdout.fileno()
        self.write(deck)

    def ask(self, event: str) -> str:
        """Asks for an event; the line that answers it. Raises Fault where none comes."""
        self.write(f"{event}\n")
        while b"\n" not in self.came:
            self.came += self.read() or self.ended()
        line, _, self.came = self.came.partition(b"\n")
        return line.decode("latin-1")

    def ask_last(self, event: str) -> list[str]:
        """Asks for the last event of a schedule; the lines that are printed up to the program's end."""
        self.write(f"{event}\n")
        part = self.read()
        while part:
            self.came += part
            part = self.read()
        self.end()
        return self.came.decode("latin-1").splitlines() or [""]

    def write(self, text: str) -> None:
        """Writes a text to the program."""
        data = text.encode("latin-1")
        while data:
            self.wait("it to read", writing=[self.input])
            try:
                data = data[os.write(self.input, data[:PIECE]) :]
            except BrokenPipeError:
                self.ended()

    def read(self) -> bytes:
        """What the program prints next; nothing at its end."""
        self.wait("it to print", reading=[self.output])
        return os.read(self.output, 65536)

    def wait(self, what: str, reading: Sequence[int] = (), writing: Sequence[int] = ()) -> None:
        """Waits until the program reads or prints. Raises Fault if it doesn't."""
        try:
            wait_for_stream(what, reading, writing)
        except Missing as fault:
            raise Fault(self.path, str(fault)) from None

    def ended(self) -> NoReturn:
        """Tells that the program has ended before it answered."""
        told = self.end().decode("latin-1").partition("\n")[0].removeprefix("cdc6600: ")
        how = f"it ended with status {self.process.returncode} and no answer"
        raise Fault(self.path, f"{how}: {told}" if told else how)

    def end(self) -> bytes:
        """Ends the program, if it still runs; what it wrote to standard error."""
        try:
            return self.process.communicate(timeout=1)[1]
        except subprocess.TimeoutExpired:
            self.process.kill()
            return self.process.communicate()[1]

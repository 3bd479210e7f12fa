"""What can go wrong where an emulator is compared, and how a tool ends then."""

import signal
import sys
import threading
from contextlib import contextmanager
from types import FrameType
from typing import Callable, Iterator

from cdc6600.shared import ending

BAD_INPUT = 2
# Set where a tool ends before its work is done: then the commands that it runs are ended too.
IS_OVER = threading.Event()


class BadInput(Exception):
    """What is wrong with a file, a log, a command or the program. Its text is the line for the user."""


class Failure(Exception):
    """What an emulator does where it prints no dump. Its text follows the name of its command."""


class Slow(Failure):
    """An emulator that ran into its limit of time, so many seconds. It hangs or is slow."""

    def __init__(self, limit: float) -> None:
        super().__init__(f"doesn't end in {limit:g} seconds")
        self.limit = limit


class Leaving:
    """How a signal ends the tool: quietly, and with the commands that it runs. Nothing interrupts the main thread while
    it starts a command and waits for its end: the command is ended first, since it looks whether the tool is over."""

    def __init__(self) -> None:
        self.number, self.is_later = 0, False

    def leave(self, number: int, _: FrameType | None) -> None:
        """Ends the tool by a signal."""
        self.number = number
        IS_OVER.set()
        if not self.is_later:
            sys.exit(128 + number)

    @contextmanager
    def later(self) -> Iterator[None]:
        """Within it a signal to the main thread waits. Other threads get none."""
        if threading.current_thread() is not threading.main_thread():
            yield
            return
        self.is_later = True
        try:
            yield
        finally:
            self.is_later = False
            if self.number:
                sys.exit(128 + self.number)


LEAVING = Leaving()


def read_all(main: Callable[[], int]) -> int:
    """What the main function of a tool answers. A fault of a device or a file is bad input."""
    try:
        return main()
    except BrokenPipeError:
        raise
    except OSError as fault:
        line = ending.refused(fault) or f"{fault.filename or 'a device'}: {fault.strerror}"
        raise BadInput(line) from None


def ended(tool: str, main: Callable[[], int]) -> int:
    """Goes through a tool's main function; its exit status."""
    for number in (signal.SIGINT, signal.SIGTERM):
        signal.signal(number, LEAVING.leave)
    if sys.stdout is None:
        print(f"{tool}: standard output is closed", file=sys.stderr)
        return BAD_INPUT
    ending.set_errors(sys.stdout, "backslashreplace")
    return ending.ended(tool, lambda: read_all(main), BadInput, status=BAD_INPUT)

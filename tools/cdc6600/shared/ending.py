"""How a script ends, and what it tells then."""

import argparse
import errno
import os
import signal
import sys
from io import TextIOWrapper
from typing import Callable, NoReturn, TextIO

# As a shell tells it of a command that a signal has ended.
INTERRUPTED, UNREAD = 128 + signal.SIGINT, 128 + signal.SIGPIPE
# The faults with which the system refuses a process, and how Python begins the fault of a refused thread.
REFUSALS, NO_THREAD = (errno.EAGAIN, errno.ENOMEM), "can't start new thread"
# How Python tells that a call has failed and the fault is lost, as that of refused memory sometimes is.
LOST = "without setting an exception"


class Unwritten(Exception):
    """Standard output can't be written. Its text is the line for the user."""


def why_not_started(fault: OSError) -> str:
    """Why a program couldn't be started, by the fault of the system."""
    return f"a process was refused: {fault.strerror}" if fault.errno in REFUSALS else fault.strerror


def refused(fault: BaseException) -> str | None:
    """What the system has refused to a script: memory, a thread or a process; none for any other fault."""
    if isinstance(fault, MemoryError) or (isinstance(fault, SystemError) and LOST in str(fault)):
        return "memory was refused"
    if isinstance(fault, RuntimeError) and str(fault).startswith(NO_THREAD):
        return "a thread was refused"
    if isinstance(fault, OSError) and fault.errno in REFUSALS and fault.filename is None:
        return why_not_started(fault)
    return None


def printable(text: str) -> str:
    """A text of one line, in which characters that a terminal may obey are replaced by their codes, but for tabs."""
    return "".join(it if it.isprintable() or it == "\t" else it.encode("unicode_escape").decode() for it in text)


class Parser(argparse.ArgumentParser):
    """A parser of arguments whose help text is the comment of its tool as it is written, and whose faults are
    printable."""

    def __init__(self, description: str) -> None:
        super().__init__(description=description, formatter_class=argparse.RawDescriptionHelpFormatter)

    def error(self, message: str) -> NoReturn:
        super().error(printable(message))


def tell(name: str, fault: object) -> None:
    """Writes what is wrong to standard error, in one line after the script's name."""
    print(f"{name}: {printable(str(fault))}", file=sys.stderr)


def flush_output() -> None:
    """Writes what is left of standard output.

    Raises Unwritten if that fails, and BrokenPipeError if nobody reads it. Then the rest is discarded, so that Python
    doesn't try to write it once more."""
    try:
        if sys.stdout is not None:
            sys.stdout.flush()
    except OSError as fault:
        os.dup2(os.open(os.devnull, os.O_WRONLY), sys.stdout.fileno())
        if isinstance(fault, BrokenPipeError):
            raise
        raise Unwritten(f"standard output: {fault.strerror}") from None


def set_errors(stream: TextIO, errors: str, encoding: str | None = None) -> None:
    """Sets how a standard stream encodes or decodes what its encoding hasn't, and perhaps its encoding."""
    if isinstance(stream, TextIOWrapper):
        stream.reconfigure(encoding=encoding, errors=errors)


def shown(name: str, text: str) -> int:
    """Prints a text for the user of a script; the script's status."""
    def work() -> int:
        print(text)
        return 0

    return ended(name, work)


def ended(name: str, main: Callable[[], int], *faults: type[Exception], status: int = 1) -> int:
    """Calls the main function of a script; its status. A fault of one of these kinds is told in one line after the
    script's name, with this status. So is standard output that can't be written, and what the system has refused. An
    interrupt ends it quietly, and so does it where nobody reads what it prints."""
    told: tuple[type[Exception], ...] = (Unwritten, *faults)
    try:
        try:
            return main()
        finally:
            flush_output()
    except BrokenPipeError:
        return UNREAD
    except KeyboardInterrupt:
        return INTERRUPTED
    except told as fault:
        line = str(fault)
    except (OSError, MemoryError, RuntimeError, SystemError) as fault:
        # A fault of a file names it; one of standard output doesn't.
        if said := refused(fault):
            line = said
        elif isinstance(fault, OSError) and fault.filename is None:
            line = f"standard output: {fault.strerror}"
        else:
            raise
    # By now the memory of what has failed is free.
    tell(name, line)
    return status

"""What the words of a command line stand for."""

import argparse
from pathlib import Path

from cdc6600.assembling.sources import Refused, as_deck
from cdc6600.shared.reading import read_file, read_stream

from .faults import BadInput

# The seconds that a call of an emulator may take, if nothing else is said, and how many more for each million steps of
# its log. So an emulator that does 5,000 steps a second is never too slow.
SECONDS, MORE = "20", "200"
MOST_SECONDS = 86400
# The name of a file that stands for standard input.
STANDARD_INPUT = "-"


def number(word: str, digits: int = 6) -> int:
    """A number of decks, of at most so many digits."""
    if not (word.isascii() and word.isdecimal() and len(word) <= digits):
        raise argparse.ArgumentTypeError(f"{word} is no number of up to {digits} decimal digits")
    return int(word)


def count(word: str) -> int:
    """A number of steps, at least 1."""
    if not number(word):
        raise argparse.ArgumentTypeError(f"{word} is no number above 0")
    return int(word)


def jobs(word: str) -> int:
    """A number of decks that are taken side by side, at least 1."""
    if not number(word, 3):
        raise argparse.ArgumentTypeError(f"{word} is no number above 0")
    return int(word)


def seed(word: str) -> int:
    return number(word, 18)


def seconds(word: str) -> float:
    try:
        found = float(word)
    except ValueError:
        found = 0.0
    if not 0 < found <= MOST_SECONDS:
        raise argparse.ArgumentTypeError(f"{word} is no time from 0 to {MOST_SECONDS} seconds")
    return found


def slope(word: str) -> float:
    """The seconds by which a limit of time grows with each thousand steps, from those for a million."""
    return seconds(word) / 1000


def bytes_of(file: str | Path) -> bytes:
    """What a file has.

    Raises BadInput where it can't be read."""
    try:
        return read_file(file)
    except (OSError, ValueError) as fault:
        raise BadInput(f"{file}: {getattr(fault, 'strerror', None) or fault}") from None


def deck_of(file: str) -> bytes:
    """What a file has as a deck. A source program is assembled.

    Raises BadInput where it can't be read, or is a source program with a fault."""
    try:
        return as_deck(file, bytes_of(file))
    except Refused as fault:
        raise BadInput(str(fault)) from None


def standard_input() -> bytes:
    """What standard input has.

    Raises BadInput where it can't be read."""
    try:
        with open(0, "rb", buffering=0, closefd=False) as stream:
            return read_stream(stream, "standard input")
    except OSError as fault:
        raise BadInput(f"standard input: {fault.strerror}") from None

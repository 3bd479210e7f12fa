"""What may be typed to drive a machine, word for word: to complete what is typed in part, and to find what a misspelt
line means."""

import difflib
import os
from typing import Iterable

from cdc6600.asking.states import CHANNELS, PLACES
from cdc6600.drawing.units import UNITS

COMMANDS = ("?", "help", "next", "past", "quit", "save ", "source", "undo", "until ", "until refused", "values")
PHRASES = sorted((
    *COMMANDS, "issue", "exchange", "drain", "end", "ask ", "bank ", "ppread ", "ppwrite ",
    *(f"{verb} {unit}" for verb in ("read", "finish", "store", "through") for unit in UNITS),
    *(f"accept {place}" for place in PLACES), *(f"return {channel}" for channel in CHANNELS),
))


def completions(typed: str, events: Iterable[str]) -> list[str]:
    """The lines that begin with what is typed, by the events that may be tried and by all phrases."""
    return sorted({line for line in (*events, *PHRASES) if line.startswith(typed)})


def completed(typed: str, events: Iterable[str]) -> tuple[str, list[str]]:
    """What is typed, with all that must follow, and the lines that it may become."""
    found = completions(typed, events)
    return (os.path.commonprefix(found) if found else typed), found


def near(line: str) -> str:
    """The phrase that a line is like, in a sentence; nothing where there is none."""
    found = difflib.get_close_matches(line.lower(), [it.strip(" ") for it in PHRASES], 1, 0.75)
    return f" Do you mean {found[0]}?" if found else ""

"""Dumps of the whole memory: what stands in them, and where two differ."""

import re
from dataclasses import dataclass
from functools import cached_property

from cdc6600.shared.ending import printable

from .faults import Failure

ADDRESS, WORD = "([0-7]{6})", "([0-7]{20})"
HALTS = "(running|stop|straddle|fetch|illegal [0-7]{2,3})"
# The lines before those of memory: the names of what stands in each, and its form.
LINES: tuple[tuple[tuple[str, ...], str], ...] = (
    (("P", "PARCEL", "HELD"), rf"P {ADDRESS} PARCEL ([0-3]) HELD ([0-7]{{20}}|none)"),
    (("HALT", "FAULT"), rf"HALT {HALTS} FAULT (none|address)"),
    (("RA", "FL", "EM"), rf"RA {ADDRESS} FL {ADDRESS} EM {ADDRESS}"),
    *((tuple(f"{kind}{n}" for n in range(8)), kind + f" {ADDRESS}" * 8) for kind in "AB"),
    *(((f"X{n}",), f"X{n} {WORD}") for n in range(8)),
)
LOG = "LOG "


@dataclass(frozen=True)
class Difference:
    """What two dumps have under one name: a register, a word of memory, or another part of the machine's state."""

    name: str
    proved: str
    came: str


def form_of(number: int) -> tuple[tuple[str, ...], str]:
    """The names of what a line of a dump has, and its form. Lines are numbered from 0."""
    if number < len(LINES):
        return LINES[number]
    address = f"{number - len(LINES):06o}"
    return (f"M {address}",), f"M {address} {WORD}"


def shown(line: str) -> str:
    """A line as it may stand in a fault."""
    return printable(line)[:60]


class Dump:
    """A dump by its text. Its last line, with the log, isn't part of what it shows."""

    def __init__(self, text: bytes) -> None:
        self.lines = text.decode("latin-1").removesuffix("\n").split("\n")
        if self.lines[-1].startswith(LOG):
            self.lines.pop()

    def values(self, number: int) -> dict[str, str]:
        """What a line has under each of its names.

        Raises Failure where the line hasn't the form of one at its position."""
        names, form = form_of(number)
        found = re.fullmatch(form, self.lines[number])
        if not found:
            what = f"a line of {names[0]} is to be" if number < len(LINES) else f"{names[0]} and a word are to be"
            raise Failure(f"prints no dump: line {number + 1} is `{shown(self.lines[number])}`, where {what}")
        return dict(zip(names, found.groups()))

    @cached_property
    def state(self) -> dict[str, str]:
        """All that stands before memory."""
        return {name: value for number in range(len(LINES)) for name, value in self.values(number).items()}

    def number(self, name: str) -> int:
        """A part of the state as a number."""
        return int(self.state[name], 8)

    def word(self, address: int) -> str:
        """A word of memory, in its digits."""
        return self.values(len(LINES) + address)[form_of(len(LINES) + address)[0][0]]

    @property
    def size(self) -> int:
        """How many words of memory it has."""
        return len(self.lines) - len(LINES)

    def differences(self, came: "Dump") -> tuple[Difference, ...]:
        """Where another dump differs from this one.

        Raises Failure where the other one is no dump of this memory."""
        wrong = [number for number, pair in enumerate(zip(self.lines, came.lines)) if pair[0] != pair[1]]
        pairs = [(self.values(number), came.values(number)) for number in wrong]
        if len(came.lines) < len(self.lines):
            raise Failure(f"prints no whole dump: it ends before {form_of(len(came.lines))[0][0]}")
        if len(came.lines) > len(self.lines):
            raise Failure(f"prints no dump: `{shown(came.lines[len(self.lines)])}` comes after its last word")
        names = [(name, ours[name], theirs[name]) for ours, theirs in pairs for name in ours]
        return tuple(Difference(*it) for it in names if it[1] != it[2])

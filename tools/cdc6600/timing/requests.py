"""The requests for exchanges that a deck has, in the order in which they are made."""

import re
from typing import Iterable

REQUEST = re.compile(r"ask ([0-7]+) (?:after ([0-9]+)|(free))")
START = re.compile(r"start ([0-7]+)")


class Requests:
    """The requests that are still to be made: that of the deck's start, those due after so many instructions, and the
    free ones."""

    def __init__(self, deck: Iterable[str]) -> None:
        """Reads the lines of a deck that the program accepts."""
        found = [REQUEST.fullmatch(line) for line in deck]
        self.start = [it[1] for it in map(START.fullmatch, deck) if it]
        self.counted = sorted(((int(it[2]), it[1]) for it in found if it and it[2]), key=lambda pair: pair[0])
        self.free = [it[1] for it in found if it and it[3]]

    def next(self, issued: int) -> str | None:
        """Takes the package of the request that is due after so many instructions, or none. A free one is due if no
        other is."""
        if self.start:
            return self.start.pop(0)
        if self.counted and self.counted[0][0] <= issued:
            return self.counted.pop(0)[1]
        return self.free.pop(0) if self.free else None

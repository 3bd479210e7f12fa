"""What is wrong with a source program."""

from pathlib import Path

from cdc6600.shared.telling import filled

from .language import LANGUAGE

FAULTS: dict[str, str] = LANGUAGE["faults"]
# How many faults of a source program are printed.
MOST: int = LANGUAGE["most faults"]
# A text of a line is cut in a fault if it is longer.
LONGEST = LANGUAGE["longest"]


class Wrong(Exception):
    """What is wrong in a line, by the name of the fault and what it is about, with the column where it is found,
    counted from 1."""

    def __init__(self, column: int, fault: str, **given: str | list[str] | bool) -> None:
        super().__init__(filled(FAULTS[fault], given))
        self.column = column


def quoted(text: str) -> str:
    """A text of a line as a fault shows it."""
    return f"'{text}'" if len(text) <= LONGEST else f"'{text[:LONGEST]}..'"


class Faults:
    """The faults of a source program, by its name."""

    def __init__(self, name: str | Path) -> None:
        self.name, self.found = name, set[tuple[int, int, str]]()

    def add(self, number: int, wrong: Wrong) -> None:
        """Adds what is wrong in the line of this number."""
        self.found.add((number, wrong.column, str(wrong)))

    @property
    def placed(self) -> list[tuple[str, str]]:
        """Where each fault is, and what is wrong there, in the order of the source."""
        return [(f"{self.name}:{number}:{column}", what) for number, column, what in sorted(self.found)]

    @property
    def lines(self) -> list[str]:
        """A line for each fault, in the order of the source, and a last one if there are too many."""
        lines = [f"{where}: {what}" for where, what in self.placed]
        more = filled(FAULTS["more"], {"count": str(len(lines) - MOST)})
        return lines[:MOST] + [f"{self.name}: {more}"] * (len(lines) > MOST)

"""Reads a file of times: how many minor cycles each part of the machine takes."""

import re
from pathlib import Path

from cdc6600.drawing.following import Fault, text_of
from cdc6600.shared.ending import printable
from cdc6600.shared.instructions import instruction

DEFAULT = Path(__file__).resolve().parent / "thornton.times"
# The names of a file, each with its least number. An issue takes at least one minor cycle.
LEAST = {
    "issue15": 1, "issue30": 1, "boolean": 0, "shift": 0, "longadd": 0, "increment": 0, "divide": 0, "untaken": 0,
    "taken": 0, "hopper": 0, "access": 0, "bank": 0, "exchange": 0,
}
MOST = 9999
FIELD = re.compile(r"[^ \t]+")
BRANCH = "branch"


class Times:
    """The minor cycles of each part, by the names of a file of times."""

    def __init__(self, cycles: dict[str, int]) -> None:
        self.cycles = cycles

    def __getitem__(self, name: str) -> int:
        return self.cycles[name]

    def issue(self, text: str) -> int:
        """The cycles between the issue of an instruction and the next one. A text that is none halts the machine."""
        found = instruction(text)
        return self.cycles["issue30" if found and found.row.is_long else "issue15"]

    def unit(self, unit: str, is_taken: bool) -> int:
        """The cycles of a unit from its read event to its finish event."""
        if unit == BRANCH:
            return self.cycles["taken" if is_taken else "untaken"]
        return self.cycles[unit.rstrip("12")]


# Times that say nothing: only the order of the events counts.
NO_TIMES = Times(dict.fromkeys(LEAST, 0))


def shown(word: str) -> str:
    """A word of a file as a fault shows it."""
    return f"'{printable(word)[:32]}'"


class Reader:
    """Reads the lines of a file of times."""

    def __init__(self, file: str | Path) -> None:
        self.file, self.found = file, dict[str, int]()

    def fault(self, number: int, column: int, what: str) -> Fault:
        """A fault at a column of a line, both counted from 1."""
        return Fault(self.file, f"line {number}, column {column}: {what}")

    def read(self, number: int, line: str) -> None:
        """Reads a line.

        Raises Fault where it is neither empty nor a name and a number."""
        fields = list(FIELD.finditer(line.partition("#")[0]))
        if not fields:
            return
        name = fields[0][0]
        if name not in LEAST or name in self.found:
            what = "is named twice" if name in self.found else "is no name of a time"
            raise self.fault(number, fields[0].start() + 1, f"{shown(name)} {what}")
        if len(fields) == 1:
            raise self.fault(number, fields[0].end() + 1, f"{name} has no number")
        word, column = fields[1][0], fields[1].start() + 1
        if not (re.fullmatch("[0-9]{1,4}", word) and int(word) >= LEAST[name]):
            raise self.fault(number, column, f"{shown(word)} is no number from {LEAST[name]} to {MOST}")
        if len(fields) > 2:
            raise self.fault(number, fields[2].start() + 1, f"{shown(fields[2][0])} is a field too many")
        self.found[name] = int(word)


def read_times(file: str | Path | None = None) -> Times:
    """The times of a file, or of the one that belongs to these tools.

    Raises Fault where it can't be read, a line is none, or a name is missing."""
    file = file or DEFAULT
    reader, lines = Reader(file), text_of(file).split("\n")
    for number, line in enumerate(lines, 1):
        reader.read(number, line.removesuffix("\r"))
    missing = [name for name in LEAST if name not in reader.found]
    if missing:
        raise reader.fault(len(lines), 1, f"the file ends without {missing[0]}")
    return Times(reader.found)

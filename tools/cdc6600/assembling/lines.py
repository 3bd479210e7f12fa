"""The lines of a source program: label, operation and operands, each with its column."""

import re
from dataclasses import dataclass

from .faults import Wrong, quoted
from .language import LANGUAGE, PATTERNS

COMMENT = LANGUAGE["comment"]
# A text in display code. Its blanks and commas are characters like others.
TEXT = LANGUAGE["patterns"]["text"]
# A label from column one, an operation and the gap after it; then operands up to two blanks, a tab or the line's end.
FORM, OPERANDS = PATTERNS["line"], PATTERNS["operands"]
# The operations without operands. Two blanks or a tab after one begin a comment.
ALONE = LANGUAGE["alone"]
# Those whose operands have blanks between them. A tab there is a blank.
SETTERS, TAB = LANGUAGE["setters"], PATTERNS["tab"]


@dataclass(frozen=True)
class Line:
    """A line of a source program: its number, its text, and its parts. A part that isn't there is empty. The columns
    are those of the operation and of the operands, or those at which they would begin."""

    number: int
    text: str
    label: str = ""
    operation: str = ""
    operands: str = ""
    column: int = 1
    operands_column: int = 1

    @property
    def statement(self) -> str:
        """The operation with its operands."""
        return f"{self.operation} {self.operands}".rstrip()

    @property
    def fields(self) -> list[tuple[str, int]]:
        """The fields of the operands, between blanks, each with its column."""
        return self.parted(" ")

    @property
    def values(self) -> list[tuple[str, int]]:
        """The values of the operands, between commas, each with its column."""
        return self.parted(",")

    def parted(self, mark: str) -> list[tuple[str, int]]:
        """The parts of the operands between marks that are in no text, each with its column."""
        marks = [it.start() for it in re.finditer(f"{TEXT}|{mark}", self.operands) if it[0] == mark]
        begins = [0, *(at + 1 for at in marks)] if self.operands else []
        return [(self.operands[at:end], self.operands_column + at) for at, end in zip(begins, [*marks, None])]

    def check_letters(self) -> None:
        """Raises Wrong for a part with small letters. Those of a byte that is no text, as `\\xff`, don't count."""
        parts = (self.label, 1), (self.operation, self.column), (self.operands, self.operands_column)
        for part, column in parts:
            if PATTERNS["small letter"].search(PATTERNS["byte"].sub("", part)):
                raise Wrong(column, "small letters", text=quoted(part))


def read_line(number: int, text: str) -> Line:
    """Reads the line of this number.

    Raises Wrong for operands of an operation that has none."""
    if text.startswith(COMMENT):
        return Line(number, text)
    found = FORM.match(text)
    assert found
    label, operation, gap = found.groups()
    column = found.start(2) + 1 if operation else len(text) + 1
    operands_column = column + len(operation) + max(len(gap), 1)
    rest = text[found.end() :]
    operands = OPERANDS.findall(TAB.sub(" ", rest) if operation in SETTERS else rest)[0]
    if operation in ALONE:
        if gap == " " and operands:
            raise Wrong(operands_column, "operands of none", text=quoted(operands), operation=operation)
        operands = ""
    return Line(number, text, label, operation, operands, column, operands_column)


def lines_of(text: str) -> list[str]:
    """The lines of a source program, without the characters that end them."""
    lines = text.split("\n")
    return [line.removesuffix("\r") for line in (lines if lines[-1] else lines[:-1])]

"""The values of the registers, and of the words that the deck shows, as numbers and in lines."""

from typing import Container, Mapping

REGISTERS = tuple(f"{kind}{number}" for kind in "XAB" for number in range(8))
# What stands before a value that the event changed.
CHANGED = "*"
# The columns that the number of a register takes at most; those after the last register don't matter.
WIDTHS = {"A": 7, "B": 7, "X": 0}


def number_of(digits: str) -> str:
    """The number that octal digits stand for in ones' complement: 20 digits for 60 bits, 6 for 18."""
    whole, value = (1 << 3 * len(digits)) - 1, int(digits, 8)
    return str(value) if value <= whole // 2 else f"-{whole - value}"


def changes(values: Mapping[str, str], before: Mapping[str, str]) -> dict[str, list[str]]:
    """The values that differ from those before, each with its number."""
    return {name: [digits, number_of(digits)] for name, digits in values.items() if before.get(name) != digits}


def value_lines(values: Mapping[str, str], before: Mapping[str, str]) -> list[str]:
    """The values in lines of at most 80 characters: the registers of one number side by side, then the words. A mark
    stands before those that differ from the values before."""
    changed = changes(values, before)
    lines = ["".join(told(f"{kind}{number}", values, changed, WIDTHS[kind]) for kind in "ABX") for number in range(8)]
    words = [name for name in values if name not in REGISTERS]
    return [line.rstrip(" ") for line in [*lines, *(told(name, values, changed, 0) for name in words)]]


def told(name: str, values: Mapping[str, str], changed: Container[str], width: int) -> str:
    """A value in a line: whether it has changed, its name, its digits, and its number in so many columns at least."""
    return f"{CHANGED if name in changed else ' '}{name} {values[name]} {number_of(values[name]):<{width}}"

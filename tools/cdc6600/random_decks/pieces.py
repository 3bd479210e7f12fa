"""Pieces of programs: instructions on registers, and those that keep what registers have."""

from functools import lru_cache
from typing import Sequence

from cdc6600.shared.instructions import ROWS, Instruction

from .draws import Draws
from .programs import spelled

# The rows that set a register and make no branch; of those that set an A register, A0 makes no reference.
ON_REGISTERS = tuple(code for code in ROWS if code[0] != "0")
ON_X = tuple(code for code in ON_REGISTERS if code[0] not in "56")
SHORT_ON_X = tuple(code for code in ON_X if not ROWS[code].is_long)
NOMINAL = ("22", "23")
ALL = tuple(range(8))
# A unit is drawn before a row, so that those with few rows come often enough; passes come seldom.
UNITS = ("Boolean", "Shift", "Long Add", "Divide", "Increment") * 3 + ("Boolean", "Shift", "Increment", "none")


@lru_cache
def by_unit(codes: tuple[str, ...]) -> dict[str, list[str]]:
    """The codes of each unit."""
    return {unit: [code for code in codes if ROWS[code].unit == unit] for unit in UNITS}


def drawn_code(draws: Draws, codes: tuple[str, ...]) -> str:
    found = by_unit(codes)
    return draws.one_of(found[draws.one_of([unit for unit in UNITS if found[unit]])])


def on_registers(draws: Draws, codes: tuple[str, ...] = ON_REGISTERS, xs: Sequence[int] = ALL,
                 bs: Sequence[int] = ALL) -> list[Instruction]:
    """One or two instructions of these rows, whose results are among these registers, or A0. A shift by a B register
    comes after one that sets how far it goes, for the most part."""
    code = drawn_code(draws, codes)
    fields = {"i": draws.one_of(xs), **{name: draws.below(8) for name in "jk"}}
    fields |= {"jk": draws.count(), "K": draws.index()}
    if code[0] in "56":
        fields["i"] = draws.one_of(bs) if code[0] == "6" else 0
    if code in NOMINAL and "61" in codes and fields["j"] in bs and draws.chance(0.8):
        return [spelled("61", i=fields["j"], j=0, K=draws.long_count()), spelled(code, **fields)]
    return [spelled(code, **fields)]


def word_on_x(draws: Draws) -> list[Instruction]:
    """The four instructions of a word, which set X registers alone."""
    return [it for _ in range(4) for it in on_registers(draws, SHORT_ON_X)]


def keep(draws: Draws) -> list[Instruction]:
    """Stores what a drawn register has into the next word after A6; of A registers it is A0."""
    number = draws.below(8)
    copies = (spelled("10", i=6, j=number), spelled("76", i=6, j=number, k=0), spelled("74", i=6, j=0, k=0))
    return [copies[draws.one_of((0, 0, 0, 1, 1, 2))], store_next(6)]


def mark(draws: Draws) -> list[Instruction]:
    """Stores a drawn number into the next word after A6, which shows that the program came here."""
    return [spelled("71", i=6, j=0, K=draws.index()), store_next(6)]


def store_next(number: int) -> Instruction:
    """Stores X6 or X7 into the next word after A6 or A7."""
    return spelled("50", i=number, j=number, K=1)

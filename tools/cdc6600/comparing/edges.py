"""The edges of each instruction: the values of its operands, its results and its addresses that an emulator gets wrong
most easily; and which of them a step shows.

An edge is named by two words: the operand or the part of the instruction, and what it has. Numbers of addresses are
octal, and counts decimal.
"""

from typing import Iterable

from cdc6600.shared.instructions import Instruction, Row

from .dumps import Dump
from .reports import NO_WORD, Issue

INDEX_ONES, WORD_ONES = (1 << 18) - 1, (1 << 60) - 1
ZEROS, LARGEST, SMALLEST, LEFTMOST = ("+0", "-0"), "max", "min", 0o400000
# The counts of the field jk, and the magnitudes of Bj for 22 and 23. A magnitude above the last one is an edge too.
COUNTS, MAGNITUDES, ABOVE = (0, 1, 59, 60, 63), (0, 1, 59, 60, 63, 64), "up"
# The upper twelve bits that 034 to 037 look for, except those of the largest and the smallest number.
INDEFINITE = ("1777", "6000")
RETURN_JUMP, JUMP, ON_WORDS, ON_INDEXES = "010", "02", "03", ("04", "05", "06", "07")
ON_UPPER_BITS, NOMINAL, COUNT_OF_ONES = ("034", "035", "036", "037"), ("22", "23"), "47"
REFERRING, TO_B, INCREMENTS = "5", "6", "567"
# The fields of the first parcel that an instruction doesn't use, and the position of each in its five digits.
UNUSED = {"00": "ijk", "010": "j", "02": "j", "10": "k", "14": "j", "46": "ijk", "47": "j"}
POSITIONS = {"i": 2, "j": 3, "k": 4}
TARGETS = {0: "0", INDEX_ONES: "777777"}
# The parcel of an instruction of two parcels that is the last one of its word.
LAST_OF_TWO = 2


def edges_of_numbers(ones: int) -> dict[int, str]:
    """The edges among numbers of some bits, of which `ones` has all, by their values."""
    return {0: ZEROS[0], ones: ZEROS[1], ones >> 1: LARGEST, ones - (ones >> 1): SMALLEST}


OF_INDEXES, OF_WORDS = edges_of_numbers(INDEX_ONES), edges_of_numbers(WORD_ONES)


def edges_of_magnitudes() -> list[str]:
    """The edges of Bj for 22 and 23: each magnitude with both signs, and any above them."""
    return [f"{sign}{magnitude}" for sign in "+-" for magnitude in (*MAGNITUDES, f"{MAGNITUDES[-1] + 1}{ABOVE}")]


def magnitude_of(index: int) -> str | None:
    """The edge that a Bj of 22 or 23 is, or none."""
    sign, magnitude = ("-", INDEX_ONES - index) if index & LEFTMOST else ("+", index)
    if magnitude > MAGNITUDES[-1]:
        return f"{sign}{MAGNITUDES[-1] + 1}{ABOVE}"
    return f"{sign}{magnitude}" if magnitude in MAGNITUDES else None


def is_branch(row: Row) -> bool:
    """Whether a row may jump or not."""
    return row.code.startswith(ON_WORDS) or row.code in ON_INDEXES


def names(part: str, edges: Iterable[object]) -> list[str]:
    """The names of the edges of a part of an instruction."""
    return [f"{part} {edge}" for edge in edges]


def edges_of_operand(row: Row, operand: str) -> list[str]:
    """The names of the edges of an operand."""
    if row.code in NOMINAL and operand == "Bj":
        return names(operand, edges_of_magnitudes())
    return names(operand, [*OF_WORDS.values(), *INDEFINITE * (row.code in ON_UPPER_BITS)])


def edges_of(row: Row) -> tuple[str, ...]:
    """The names of all edges that can occur for a row of the instruction table."""
    unused = names("unused", UNUSED.get(row.code, ()))
    if row.code == RETURN_JUMP:
        return (*names("K", TARGETS.values()), "P+1 400000", *names("store", ("in", "out", "own")), *unused)
    found = [edge for operand in row.operands for edge in edges_of_operand(row, operand)] + unused
    if is_branch(row):
        return (*found, *names("jump", ("yes", "no")), *names("to", TARGETS.values()))
    if row.code == JUMP:
        return (*found, *names("K", OF_INDEXES.values()), *names("to", TARGETS.values()))
    found += names("K", OF_INDEXES.values()) * row.is_long
    found += names("jk", COUNTS) * ("jk" in row.text)
    found += names("result", ZEROS[: 1 if row.code == COUNT_OF_ONES else 2]) * bool(row.results)
    found += ["result none"] * (row.code[0] == TO_B)
    found += [*names("load", ("in", "out")), *names("store", ("in", "out", "own"))] * (row.code[0] == REFERRING)
    return tuple(found)


class Shown:
    """An instruction that is carried out between two dumps, and the edges that it shows."""

    def __init__(self, it: Instruction, before: Dump, after: Dump) -> None:
        self.it, self.row, self.before, self.after, self.issue = it, it.row, before, after, Issue(before)

    def value(self, dump: Dump, name: str) -> int:
        """What a register has that a row names by its field. B0 is +0."""
        return dump.number(f"{name[0]}{self.it.fields[name[1]]}")

    def operand(self, name: str) -> list[str | None]:
        """The edges that an operand is."""
        value, code = self.value(self.before, name), self.row.code
        if code in NOMINAL and name == "Bj":
            return [magnitude_of(value)]
        if name[0] != "X":
            return [OF_INDEXES.get(value)]
        if code[0] in INCREMENTS:
            return [OF_INDEXES.get(value & INDEX_ONES)]
        return [OF_WORDS.get(value), f"{value >> 48:04o}"]

    def unused(self) -> list[str]:
        """The unused fields that aren't 0."""
        return [f"unused {it}" for it in UNUSED.get(self.row.code, ()) if self.issue.digits[POSITIONS[it]] != "0"]

    def jump(self) -> list[str]:
        """The edges of where the program goes on."""
        goes_to, fields = self.after.number("P"), self.it.fields
        if self.row.code == RETURN_JUMP:
            link = "400000" if self.before.number("P") + 1 == LEFTMOST else None
            return [f"K {TARGETS.get(fields['K'])}", f"P+1 {link}"]
        if not is_branch(self.row):
            return [f"K {OF_INDEXES.get(fields['K'])}", f"to {TARGETS.get(goes_to)}"]
        if self.before.number("PARCEL") == LAST_OF_TWO and fields["K"] == self.before.number("P") + 1:
            # Whether it jumps can't be seen.
            return []
        is_taken = self.after.state["HELD"] == NO_WORD and goes_to == fields["K"]
        return ["jump yes", f"to {TARGETS.get(goes_to)}"] if is_taken else ["jump no"]

    def result(self) -> list[str]:
        """The edges of a result on registers."""
        fields = self.it.fields
        edges = [f"jk {fields.get('jk')}", f"K {OF_INDEXES.get(fields.get('K', -1))}"]
        if not self.row.results:
            return edges
        if self.row.results[0] == "Bi" and not fields["i"]:
            return [*edges, "result none"]
        ones = OF_WORDS if self.row.results[0] == "Xi" else OF_INDEXES
        return [*edges, f"result {ones.get(self.value(self.after, self.row.results[0]))}"]

    def reference(self) -> list[str]:
        """The edges of a reference: in range or out of it, and a store to the word that is held."""
        referred = self.issue.referred(self.after)
        if not referred:
            return []
        at, kind = self.issue.absolute(referred[0]), "store" if referred[1] else "load"
        is_own = at is not None and at == self.issue.address and referred[1]
        return [f"{kind} {'out' if at is None else 'in'}", *[f"{kind} own"] * is_own]

    @property
    def edges(self) -> set[str]:
        """The names of the edges that it shows."""
        found = [f"{name} {edge}" for name in self.row.operands for edge in self.operand(name)]
        found += self.jump() if self.row.unit == "Branch" else self.result()
        return set(found + self.unused() + self.reference()) & set(edges_of(self.row))

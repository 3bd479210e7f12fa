"""The instructions, as the tables of docs/use/instructions.md have them: their codes, texts, lengths, units and
operands.

It shares nothing with the program: what `list` says is compared with it.
"""

import re
from dataclasses import dataclass, replace
from functools import cached_property, lru_cache
from typing import Mapping

from .decks import cells_of
from .program import ROOT

PAGE = ROOT / "docs/use/instructions.md"
FIELDS = re.compile(r"jk|[ijkK]")
NUMBER = {"i": "[0-7]", "j": "[0-7]", "k": "[0-7]", "jk": "0|[1-7][0-7]?", "K": "0|[1-7][0-7]{0,5}"}
# Where a row says that it is written for several codes, and that its operands stand in the table of the second digits;
# and the unit of these.
SEVERAL, BELOW, INCREMENT = " to ", " ..", "Increment"
# The registers of an increment of A whose X register is stored, and of one that neither loads nor stores.
STORED, ALONE = ("A6", "A7"), "A0"


@dataclass(frozen=True)
class Row:
    """A row of the table: its code, the text with its fields, whether it has 30 bits, its unit, and the operands and
    the results by their fields."""

    code: str
    text: str
    is_long: bool
    unit: str
    operands: tuple[str, ...]
    results: tuple[str, ...]

    @cached_property
    def pattern(self) -> re.Pattern[str]:
        """The texts of the row: each field has a group of its name."""
        parts, names = FIELDS.split(self.text), FIELDS.findall(self.text)
        groups = [f"(?P<{name}>{NUMBER[name]})" for name in names] + [""]
        return re.compile("".join(re.escape(part) + group for part, group in zip(parts, groups)))

    def spelled(self, fields: Mapping[str, int]) -> str:
        """The text with these numbers in its fields."""
        return FIELDS.sub(lambda name: f"{fields[name[0]]:o}", self.text)


def names_in(cell: str) -> tuple[str, ...]:
    """The registers that a cell names, by their fields."""
    return tuple(re.findall(r"\b[ABX][ijk]\b", cell))


def read_tables() -> tuple[dict[str, Row], dict[str, Row], dict[str, Row]]:
    """The rows of the first table by their codes, what begins the texts of increments and what they give by their first
    digits, and what follows there by the second ones."""
    rows, increments, addends = dict[str, Row](), dict[str, Row](), dict[str, Row]()
    for cells in cells_of(PAGE):
        text = re.fullmatch(r"`([^`]*)`", cells[1])
        if not (text and cells[0][0].isdigit()):
            continue
        is_long = cells[2].startswith("30")
        if SEVERAL in cells[0]:
            increments[cells[0][0]] = Row("", text[1].removesuffix(BELOW), False, INCREMENT, (), names_in(cells[5]))
        elif len(cells[0]) == 1:
            addends[cells[0]] = Row("", text[1], is_long, INCREMENT, names_in(cells[3]), ())
        else:
            rows[cells[0]] = Row(cells[0], text[1], is_long, cells[3], names_in(cells[4]), names_in(cells[5]))
    return rows, increments, addends


def read_rows() -> dict[str, Row]:
    """The rows by their codes. An increment has a row for each second digit."""
    rows, increments, addends = read_tables()
    for first, head in increments.items():
        for second, it in addends.items():
            rows[first + second] = replace(it, code=first + second, text=f"{head.text} {it.text}", results=head.results)
    return rows


ROWS = read_rows()


@dataclass(frozen=True)
class Instruction:
    """An instruction: its row, and the numbers of the fields of its text."""

    row: Row
    fields: dict[str, int]

    @property
    def text(self) -> str:
        return self.row.spelled(self.fields)

    @property
    def parcels(self) -> list[int]:
        """Its parcels, one or two numbers."""
        field, code = self.fields, self.row.code
        j, k = divmod(field["jk"], 8) if "jk" in field else (field.get("j", 0), field.get("k", 0))
        i = int(code[2]) if len(code) == 3 else field.get("i", 0)
        upper = (int(code[:2], 8) << 9) + (i << 6) + (j << 3)
        return [upper + (field["K"] >> 15), field["K"] & 0o77777] if self.row.is_long else [upper + k]

    @property
    def operands(self) -> list[str]:
        """The registers that it reads, in the order in which they count: each once, and B0 never."""
        named = [f"{name[0]}{self.fields[name[1]]}" for name in self.row.operands]
        stored = [f"X{name[1]}" for name in STORED if self.text.startswith(f"S{name} ")]
        return [name for name in dict.fromkeys(named + stored) if name != "B0"]

    @property
    def results(self) -> list[str]:
        """The registers that it writes; B0 never. An increment of A writes an X register only if it loads."""
        named = [f"{name[0]}{self.fields[name[1]]}" for name in self.row.results]
        if named[:1] == [ALONE] or named[:1] and named[0] in STORED:
            named = named[:1]
        return [name for name in named if name != "B0"]


@lru_cache(maxsize=65536)
def instruction(text: str) -> Instruction | None:
    """The instruction that has a text; None where none has it."""
    for row in ROWS.values():
        found = row.pattern.fullmatch(text)
        if found:
            return Instruction(row, {name: int(digits, 8) for name, digits in found.groupdict().items()})
    return None


def item_at(word: str, parcel: int) -> tuple[str, int]:
    """The item at a parcel of a word, given as 20 digits, and how many parcels it has."""
    upper = word[5 * parcel : 5 * parcel + 5]
    code = upper[:3] if upper[:2] in ("01", "03") else upper[:2]
    if code not in ROWS:
        return "?" + code, 1
    row = ROWS[code]
    if row.is_long and parcel == 3:
        return "?straddle", 1
    constant = word[5 * parcel + 4 : 5 * parcel + 10]
    fields = {"i": upper[2], "j": upper[3], "k": upper[4], "jk": upper[3:5], "K": constant}
    numbers = {name: int(digits or "0", 8) for name, digits in fields.items()}
    return row.spelled(numbers), 2 if row.is_long else 1


@lru_cache(maxsize=65536)
def items_of(word: str) -> dict[int, str]:
    """The items of a word, given as 20 digits, by the parcels at which they begin."""
    items, parcel = dict[int, str](), 0
    while parcel < 4:
        items[parcel], parcels = item_at(word, parcel)
        parcel += parcels
    return items

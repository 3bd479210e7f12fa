"""The texts of instructions in a source program: those of docs/use/instructions.md and their short forms, with values
where K or jk is."""

import re
from dataclasses import dataclass, replace
from functools import lru_cache
from typing import Mapping, Sequence

from cdc6600.shared.instructions import FIELDS, ROWS, Instruction, Row

from .faults import FAULTS, Wrong, quoted
from .language import LANGUAGE, PATTERNS
from .lines import Line
from .short_forms import each_short_form
from .values import INDEX_BITS, fitted, value_of, within

# The operations that aren't instructions.
OTHERS = LANGUAGE["others"]
# What a value is written for, and the largest number of jk.
VALUES, COUNT, MOST_COUNT = ("K", "jk"), "jk", LANGUAGE["most count"]
# The value of a short form. It may have a plus in front, doesn't begin with a register, and has no comma.
SHORT_VALUE = LANGUAGE["patterns"]["short value"]
# The operations that the program, too, calls floating point.
FLOATING_POINT = PATTERNS["floating point"]


def form_of(text: str, value: str = ".+") -> re.Pattern[str]:
    """The form of a part of a row's text: each field has a group of its name. The plus before K belongs to the value,
    which may have a minus instead."""
    form, at = "", 0
    for found in FIELDS.finditer(text):
        before = text[at : found.start()]
        at = found.end()
        is_value = found[0] in VALUES
        is_signed = is_value and before.endswith("+")
        form += re.escape(before.removesuffix("+") if is_signed else before)
        digits = "[+-].+" if is_signed else value if is_value else "[0-7]"
        form += f"(?P<{found[0]}>{digits})"
    return re.compile(form + re.escape(text[at:]))


@dataclass(frozen=True)
class Form:
    """A text as it is looked for: the forms of its operation and of its operands. It has the row of the table whose
    text it is or, if it is a short form, the text that it stands for."""

    operation: re.Pattern[str]
    operands: re.Pattern[str]
    shown: str
    row: Row | None = None
    stands_for: str = ""

    @property
    def rank(self) -> tuple[bool, bool]:
        """When it is tried, the lowest rank first: a short form late, and a form with a value, which fits operands of
        others too, behind those without."""
        return bool(self.stands_for), any(name in self.operands.groupindex for name in VALUES)


def read_forms() -> list[Form]:
    """The forms of all rows, and the short forms."""
    parts = [(row, *row.text.partition(" ")) for row in ROWS.values()]
    forms = [Form(form_of(operation), form_of(rest), rest, row) for row, operation, _, rest in parts]
    short = [(text, *form.partition(" ")) for form, text in each_short_form()]
    return forms + [Form(form_of(operation), form_of(rest, SHORT_VALUE), rest, stands_for=text)
                    for text, operation, _, rest in short]


FORMS = read_forms()


@dataclass(frozen=True)
class Written:
    """An instruction of a source program: its row, its registers' digits, and the text of its value with its column, or
    an empty one."""

    row: Row
    digits: dict[str, int]
    name: str
    value: str
    column: int

    @property
    def parcels(self) -> int:
        """How many parcels it has."""
        return 2 if self.row.is_long else 1

    def instruction(self, names: Mapping[str, int]) -> Instruction:
        """The instruction, where names have these values.

        Raises Wrong where its value is none, or doesn't fit."""
        if not self.name:
            return Instruction(self.row, self.digits)
        value = value_of(self.value, self.column, names)
        if self.name == COUNT:
            number = within(value, 0, MOST_COUNT, self.column)
        else:
            number = fitted(value, INDEX_BITS, self.column)
        return Instruction(self.row, {**self.digits, self.name: number})


def expected(forms: Sequence[Form]) -> str:
    """What operands some forms have."""
    shown = [form.shown or FAULTS["none"] for form in forms]
    return " or ".join([", ".join(shown[:-1]), shown[-1]] if len(shown) > 1 else shown)


def fitting(row: Row, operation: re.Match[str], operands: re.Match[str], column: int) -> Written:
    """The instruction of a row, by what was found of its form; the operands begin at this column."""
    fields = {**operation.groupdict(), **operands.groupdict()}
    name = next((name for name in VALUES if name in fields), "")
    value = fields.pop(name, "")
    at = column + operands.start(name) if name else column
    digits = {key: int(digit) for key, digit in fields.items()}
    if value.startswith("+"):
        return Written(row, digits, name, value[1:], at + 1)
    return Written(row, digits, name, value, at)


def rewritten(line: Line, text: str, fields: Mapping[str, str]) -> Line:
    """A line of a short form with the text that it stands for. If there is a value, it ends the operands of both."""
    operation, operands = FIELDS.sub(lambda name: fields[name[0]].removeprefix("+"), text).split(" ")
    at = line.operands_column + len(line.operands) - len(operands)
    return replace(line, operation=operation, operands=operands, operands_column=at)


@lru_cache(maxsize=None)
def forms_of(operation: str) -> list[tuple[Form, re.Match[str]]]:
    """The forms that an operation may have, in the order of the table, each with what is found of it."""
    found = [(form, form.operation.fullmatch(operation)) for form in FORMS]
    return [(form, match) for form, match in found if match]


def written(line: Line) -> Written:
    """The instruction of a line.

    Raises Wrong where it has none."""
    found = forms_of(line.operation)
    if not found:
        if FLOATING_POINT.fullmatch(line.operation):
            raise Wrong(line.column, "floating point", text=quoted(line.statement))
        raise Wrong(line.column, "no operation", text=quoted(line.operation), others=OTHERS)
    for form, operation in sorted(found, key=lambda it: it[0].rank):
        operands = form.operands.fullmatch(line.operands)
        if operands and form.stands_for:
            return written(rewritten(line, form.stands_for, {**operation.groupdict(), **operands.groupdict()}))
        if operands and form.row:
            return fitting(form.row, operation, operands, line.operands_column)
    forms = expected([form for form, _ in found])
    if not line.operands:
        raise Wrong(line.operands_column, "no operands", operation=line.operation, forms=forms)
    raise Wrong(line.operands_column, "doesn't fit", text=quoted(line.operands), operation=line.operation, forms=forms)

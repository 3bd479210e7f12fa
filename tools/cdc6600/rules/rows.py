"""The tables of rules in docs/proof/definitions.md: a row for each rule, with a cell for each column."""

import re
from dataclasses import dataclass
from typing import Iterator

from cdc6600.shared.program import ROOT

PAGE = "docs/proof/definitions.md"
HEAD = "| Rule | Definition | Contract | Code | Proof | Wrong body | Source |"
COLUMNS = ("Definition", "Contract", "Code", "Proof", "Wrong body", "Source")
FUNCTION = re.compile(r"([A-Za-z0-9_:]+)(?: \(([a-z_0-9, ]*)\))?(?:, *)?")


@dataclass(frozen=True)
class Row:
    """A rule: the number of its line, its words, and its cells by their columns."""

    number: int
    rule: str
    cells: dict[str, str]


def lines_of_rules() -> Iterator[tuple[int, str]]:
    """The lines of the tables of rules with their numbers, the head of each table among them."""
    is_in_rules = False
    for number, line in enumerate((ROOT / PAGE).read_text(encoding="utf-8").split("\n"), 1):
        is_in_rules = line.startswith("|") and (is_in_rules or line.startswith("| Rule |"))
        if is_in_rules and not re.fullmatch(r"\|[-|]*", line):
            yield number, line


def rows() -> Iterator[Row]:
    for number, line in lines_of_rules():
        rule, *cells = (cell.strip() for cell in line.split("|")[1:])
        if line != HEAD:
            yield Row(number, rule, dict(zip(COLUMNS, [*cells, *[""] * len(COLUMNS)])))


def items_in(cell: str) -> list[str]:
    """What a cell names in backquotes."""
    return re.findall("`([^`]*)`", cell)


def functions_in(text: str) -> tuple[list[tuple[str, list[str]]], str]:
    """The functions of `function (clause, clause), Type::function`, each with its clauses, and the rest of the text,
    which can't be read."""
    found = []
    while named := FUNCTION.match(text):
        found.append((named[1], re.split(", *", named[2]) if named[2] else []))
        text = text[named.end() :]
    return found, text

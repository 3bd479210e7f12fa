"""Checks what the tables of docs/proof/definitions.md name: each file, definition, function, clause, proof and edit has
to stand where its cell says, and where a cell says that tactics alone prove its functions none has a proof by hand.
Then that each file of definitions is named on that page, and that each definition is cited: by a contract, or by a
definition that one cites. And that `tools/where` finds a definition, the code and a wrong body of each refusal by the
rows that name its label, and a test or a deck. It prints a line for each fault, and nothing where all is right.

Run it after a change of names, definitions or edits.
"""

import re
from typing import Iterator

from cdc6600.rules.files import Files, placed
from cdc6600.rules.labels import LABELS
from cdc6600.rules.mentions import Rules, is_tried
from cdc6600.rules.rows import COLUMNS, HEAD, PAGE, functions_in, items_in, lines_of_rules
from cdc6600.shared.program import ROOT

from .parts import told

FILES = Files()
RULES = Rules(FILES)
# The columns whose cells name parts of a file.
NAMING = ("Definition", "Contract", "Code")


def missing(column: str, name: str, rest: str) -> list[str]:
    """The names of an item in a cell that no crate has. An item is `crate/File.antt: name, name`, or `crate/file.rt:
    function (clause, clause), Type::function`, or the path of a proof or an edit."""
    if column == "Definition":
        module = name.removesuffix(".antt")
        return [it for it in re.split(", *", rest) if not FILES.has_definition(f"{module}:{it}")]
    if column in ("Proof", "Wrong body"):
        return [] if any(RULES.cells.finders[column](name, rest)) else [name]
    found = list[str]()
    for label, clauses in functions_in(rest)[0]:
        function = FILES.functions.get((placed(name, "src"), label))
        found += [it for it in clauses if it not in function.clauses] if function else [label]
    return found


def fault_of_item(column: str, item: str) -> str | None:
    """The fault of an item in a cell, or None."""
    name, _, rest = item.partition(": ")
    unread = functions_in(rest)[1] if column in ("Contract", "Code") else ""
    if column == "Source" or "/" not in name or unread or bool(rest) != (column in NAMING):
        return f"can't be read: {item}"
    lacking = missing(column, name, rest)
    return f"{name} has no {', no '.join(lacking)}" if lacking else None


def faults_of_row(line: str) -> Iterator[str]:
    """The faults of a row in a table of rules."""
    _, _, *found = line.split("|")
    if len(found) != 7:
        yield f"a row has seven cells, and not {len(found)}"
    cells = dict(zip(COLUMNS, [*found, *[""] * len(COLUMNS)]))
    for column, cell in cells.items():
        yield from (fault for item in items_in(cell) if (fault := fault_of_item(column, item)))
        if cell.count("`") % 2:
            yield f"can't be read:{cell}"
    # Where a row names tactics alone, no function of its contracts has a proof by hand.
    for item in items_in(cells["Contract"]) if cells["Proof"].startswith(" tactics") else []:
        for it, _ in RULES.cells.functions(*item.split(": ", 1)):
            if folder := FILES.by_hand.get((it.path.split("/")[1], it.label.replace("::", "/", 1))):
                yield f"not by tactics alone: there is {folder}"
    if not re.search("[a-z]", cells["Source"]):
        yield "no source is named"


def faults_of_tables() -> Iterator[str]:
    """The faults of the tables of rules, and the refusals for which `tools/where` finds too little by them."""
    lines = list(lines_of_rules())
    for number, line in lines:
        if line.startswith("| Rule |"):
            faults = [] if line == HEAD else [f"the head of a table of rules is {HEAD}"]
        else:
            faults = list(faults_of_row(line))
        yield from (f"{PAGE}:{number}: {fault}" for fault in faults)
    if not lines:
        yield f"{PAGE}: there are no rules"
    for name, label in LABELS.items():
        found = RULES.by_rows(name)
        for heading in (it for it in ("definition", "code", "wrong body") if it not in found):
            yield f"{PAGE}: no row that names {name} has a {heading}"
        if not is_tried(label):
            yield f"{PAGE}: no test and no deck names {name}"


def faults_of_definitions() -> Iterator[str]:
    """The files of definitions that the page doesn't name, and the definitions that no contract cites."""
    page, cited = (ROOT / PAGE).read_text(encoding="utf-8"), FILES.all_cited()
    for name, module in FILES.modules.items():
        if name.rpartition("/")[2] not in ("Lib", "inner") and f"`{name}.antt" not in page:
            yield f"{PAGE}: {module.path} isn't named"
        for it in (it for it in module.definitions if f"{name}:{it}" not in cited):
            yield f"{module.path}: neither a contract cites {it} nor a definition that one cites"


def main() -> int:
    return told([*faults_of_tables(), *faults_of_definitions()])

"""The table of verdicts on wrong bodies. A run tries a body again only after a change that may alter its verdict.

A verdict is valid for a checksum of its inputs: the edit, the sources, definitions and proofs of the crate, and the
contracts and definitions of the crates below. Comments and tests are no inputs. The table
docs/proof/all-wrong-bodies.txt has verdicts, each with the number of the kit's logic.
"""

import hashlib
import re
from functools import cache
from pathlib import Path
from typing import Iterable, Iterator, NamedTuple

from cdc6600.building.library import PARTS
from cdc6600.crates.table import Table, Unreadable

from .assumed import without_bodies
from .verdicts import Verdict

ROWS = "docs/proof/all-wrong-bodies.txt"
HEAD = """\
# Verdicts on wrong bodies, written by `tools/wrong-bodies --write`: the body, the number of the kit's logic, the
# checksum of the verdict's inputs, and the verdict with the goal or the case that decided it.
"""
# Increased when bodies are judged in another way, so that no older verdict is valid.
RULES = 2
COMMENT = re.compile(r"\s*(//|--|$)")
ROW = re.compile(r"([^\s#]+) (\w+) (\w+) ([^:]+): (.*)")
SUM = re.compile(r"sum (\w+), (.*)")


def sum_of(*texts: str) -> str:
    return hashlib.sha256("\0".join(texts).encode()).hexdigest()[:24]


def text_of(folder: Path, parts: Iterable[str], has_bodies: bool) -> Iterator[str]:
    """The paths and texts of a crate in these folders, without comments and tests."""
    for file in (file for part in parts for file in sorted((folder / part).rglob("*")) if file.is_file()):
        if "test" not in file.name:
            path, text = str(file.relative_to(folder)), file.read_text(encoding="utf-8")
            text = text if has_bodies or file.suffix != ".rt" else without_bodies(path, text, [])
            yield from (path, *(line for line in text.split("\n") if not COMMENT.match(line)))


@cache
def sum_of_contracts(folder: Path) -> str:
    """A sum of the contracts and definitions of a crate."""
    return sum_of(*text_of(folder, ("src", "specs"), False))


def sum_of_crate(table: Table, crate: str) -> str:
    """A checksum of the inputs that the verdicts on a crate's bodies share: all but the edits."""
    below = table.below(crate)
    listed = [table.lines[name] for name in [*below, crate]]
    contracts = [sum_of_contracts(table.folder(name)) for name in below]
    return sum_of(str(RULES), *listed, *contracts, *text_of(table.folder(crate), PARTS, True))


class Row(NamedTuple):
    """The key of a verdict: a body, the number of the kit's logic, and the checksum of the verdict's inputs."""

    body: str
    logic: str
    total: str


Rows = dict[Row, Verdict]


def lines_of(rows: Rows) -> list[str]:
    return sorted(f"{' '.join(row)} {verdict.kind}: {verdict.words}" for row, verdict in rows.items())


def rows_in(file: Path) -> tuple[Rows, list[str]]:
    """The rows of a file, and its other lines but for comments; none if there is no file."""
    rows, others = Rows(), list[str]()
    for line in file.read_text(encoding="utf-8").splitlines() if file.is_file() else []:
        if found := ROW.fullmatch(line):
            rows[Row(*found.groups()[:3])] = Verdict(found[4], found[5])
        elif not line.startswith("#"):
            others.append(line)
    return rows, others


def read_rows(root: Path) -> Rows:
    """The rows of the table; none if there is no table.

    Raises Unreadable unless its other line is the sum of the rows and of the call that wrote them."""
    rows, others = rows_in(root / ROWS)
    found = SUM.fullmatch(others[0]) if len(others) == 1 else None
    if (rows or others) and not (found and found[1] == sum_of(*lines_of(rows), found[2])):
        raise Unreadable(f"{ROWS}: it isn't as `tools/wrong-bodies --write` has written it")
    return rows


def write_rows(root: Path, rows: Rows, call: str) -> None:
    """Writes the table whole, or not at all, with the command that found its rows."""
    file, lines = root / ROWS, lines_of(rows)
    lines.append(f"sum {sum_of(*lines, call)}, {call}")
    file.parent.mkdir(parents=True, exist_ok=True)
    part = file.with_suffix(".new")
    part.write_text(HEAD + "".join(f"{line}\n" for line in lines), encoding="utf-8")
    part.replace(file)

"""The page of the checks: what each shows, when to run it and what it needs, and the packages of the tools."""

import ast
import re
from pathlib import Path
from typing import Iterator

from cdc6600.checks.debian import needed
from cdc6600.gate.parts import ASKING, BODIES, BUILDING, DECKS, SMALL, called, file_of
from cdc6600.shared.program import ROOT

PAGE = "docs/work/checks.md"
INTRODUCTION = """# The checks

`tools/check generated --write` writes this page from the comments of the checks. `tools/check NAME` runs a check, and
`.ci/run` all of them ([CHANGING.md](CHANGING.md#the-gate)). `tools/check NAME --help` says all that a check does. A
check that finds nothing prints nothing, or a line of counts; otherwise it prints a line or a few for each fault.
`CDC6600=PROGRAM` before a command names the program to try; otherwise it is the one that `tools/build-program` builds.
A check with a file in `tests/` is run by pytest, and takes the arguments of pytest: `-k WORD` chooses cases by name,
`--lf` runs those that failed last, and `-n 4` runs them in four processes. A browser is Chromium with `chromedriver`,
or Firefox.
"""
GROUPS = (
    ("The small checks read sources and pages alone, and take seconds", SMALL),
    ("The checks of the program and of the tools for users", DECKS),
    ("The checks of the tools that prove", (BODIES, *BUILDING)),
)
COLUMNS = ("Check", "What it does", "Run it after a change of", "Needs")
AFTER = re.compile(r"^Run it after (?:a change of )?(.*?)\.(?: |$)", re.MULTILINE | re.DOTALL)


def docstring_of(file: Path) -> str:
    """What a module says of itself."""
    return ast.get_docstring(ast.parse(file.read_text(encoding="utf-8"))) or ""


def first_sentence(text: str) -> str:
    """The first sentence of a text, without its full stop."""
    return re.split(r"\.(?: |$)", " ".join(text.split()), maxsplit=1)[0]


def needs_of(name: str) -> str:
    """What a check needs: the library, and programs of other projects."""
    programs = [it.program for it in needed() if name in it.checks]
    is_of_pages = "chromium" in programs
    return ", ".join([*["the library"] * (name in ASKING), *["a browser"] * is_of_pages,
                      *([] if is_of_pages else [f"`{it}`" for it in programs])])


def row(*cells: str) -> str:
    return f"| {' | '.join(cells)} |"


def rows() -> Iterator[str]:
    """The tables of the checks."""
    for head, names in GROUPS:
        yield from (f"## {head}", "", row(*COLUMNS), f"|{'---|' * len(COLUMNS)}")
        for name in names:
            said = docstring_of(ROOT / file_of(name))
            after = re.sub(r"(,|\b(?:or|and)) of ", r"\1 ", " ".join(AFTER.findall(said)[0].split()))
            link = f"[`{called(name)}`](../../{file_of(name)})"
            yield row(link, first_sentence(said), after, needs_of(name))
        yield ""


def packages() -> Iterator[str]:
    """A row for each package of the tools."""
    for file in sorted((ROOT / "tools/cdc6600").glob("*/__init__.py")):
        yield f"| `{file.parent.name}` | {docstring_of(file).removesuffix('.')} |"


def text() -> str:
    table = ["## The packages of `tools/cdc6600`\n", "| Package | What it has |", "|---|---|", *packages(), ""]
    return "\n".join([INTRODUCTION, *rows(), *table])

"""Checks the layout of the pages. It prints a line for each fault, and nothing if there is none.

- A line has at most 120 columns. The targets of links don't count; tables and code may be wider.
- A heading has an empty line before it. A line that is bold from its first word to its last is a heading too.

Run it after a change of a page.
"""

import re
from typing import Iterator

from cdc6600.shared.program import ROOT

from .parts import told, tracked

COLUMNS = 120
CODE = re.compile(r"^```.*?^```$", re.MULTILINE | re.DOTALL)
WIDE = ("|", "    ")
TARGET = re.compile(r"(?<=\])\([^)\s]*\)")
HEADING = re.compile(r"#+ |\*\*[^*]+\*\*$")


def faults_of(page: str) -> Iterator[str]:
    """The faults in the layout of a page, a text for each."""
    # A block of code becomes as many lines without text, so that the other lines keep their numbers.
    text = CODE.sub(lambda code: "    \n" * code[0].count("\n") + "    ", (ROOT / page).read_text(encoding="utf-8"))
    lines = text.split("\n")
    for number, (before, line) in enumerate(zip(["", *lines], lines), 1):
        width = len(TARGET.sub("", line))
        if width > COLUMNS and not line.startswith(WIDE):
            yield f"{page}:{number}: {width} columns, and at most {COLUMNS} are allowed"
        if HEADING.match(line) and before:
            yield f"{page}:{number}: no empty line before the heading"


def main() -> int:
    return told(fault for page in tracked("*.md") for fault in faults_of(page))

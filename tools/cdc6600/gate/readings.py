"""Checks that the tools and the second readings of the rules stay apart: no tool imports a reading, because the tools
ask the proved library, and no reading imports what asks it. It prints a line for each fault, and nothing if there is
none.

Run it after a change of what a module of `tools/cdc6600` imports.
"""

import re

from cdc6600.shared.program import ROOT

from .parts import told, tracked

IMPORTS = re.compile(r"^ *(?:import|from)\b[^(\n]*(?:\([^)]*\))?", re.MULTILINE)
READING = re.compile(r"\b(?:states_by_rules|judging_by_rules|texts_by_rules|second_reading)\b")
ASKING = re.compile(r"\basking\b")


def faults_of(path: str) -> list[str]:
    """The forbidden imports of a module."""
    unwanted = ASKING if READING.search(path) else READING
    imports = IMPORTS.findall((ROOT / path).read_text(encoding="utf-8"))
    return [f"{path}: it may not have `{words}`" for words in imports if unwanted.search(words)]


def main() -> int:
    modules = [path for path in tracked("tools/cdc6600/*.py") if "/checks/" not in path or READING.search(path)]
    return told(fault for path in modules for fault in faults_of(path))

"""Checks the bounds on the sizes of crates and functions.

    tools/check sizes            prints what is too large, and nothing if nothing is

It fails if a crate has more than 1,550 lines or 100 functions without its tests, or a function has more than 40 lines.
Some 1,500 lines are meant: a crate near that bound may still be mended, and is split when its subjects part. Tests are
the files with `test` in their names, and all files of a crate whose name ends in `_tests`.

Run it after a change of the code.
"""

from cdc6600.crates.crate import Crate, crates
from cdc6600.generating.sizes import sizes_of

from .parts import told

MOST_LINES, MOST_FUNCTIONS, MOST_OF_A_FUNCTION = 1550, 100, 40


def long_functions(crate: Crate) -> list[str]:
    """A fault for each function that is too long."""
    functions = [it for source in crate.code for it in source.functions]
    return [f"more than 40 lines: {it.path}:{it.number}" for it in functions if it.size > MOST_OF_A_FUNCTION]


def main() -> int:
    faults = []
    for crate in crates():
        lines, functions, *_ = sizes_of(crate)
        faults += [f"too large: `{crate.name}`"] if lines > MOST_LINES or functions > MOST_FUNCTIONS else []
        faults += long_functions(crate)
    return told(faults)

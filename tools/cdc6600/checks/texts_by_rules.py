"""A second reading of the rules, for the checks alone: what the text of an instruction says, which is the kind of unit
that it takes, its operands, and its results.

A text that is none, as `?30` or `?straddle` in a listing, takes no unit.
"""

import re

from cdc6600.shared.instructions import instruction

# The units of each kind, lowest number first.
KINDS = {
    "branch": ("branch",), "boolean": ("boolean",), "shift": ("shift",), "add": ("add",), "longadd": ("longadd",),
    "multiply": ("multiply1", "multiply2"), "divide": ("divide",), "increment": ("increment1", "increment2"),
}
# The unit of an instruction that takes none, as docs/use/instructions.md has it.
NO_UNIT = "none"
# The register of the result comes after the first letter. A branch has none.
RESULT = re.compile(r"[A-Z]([ABX][0-7]) ")
LOADED, STORED, LINK = re.compile(r"SA([1-5]) "), re.compile(r"SA[67] |RJ "), "RJ "


def kind_of(text: str) -> str | None:
    """The kind of unit that an instruction takes, or none."""
    found = instruction(text)
    if not found or found.row.unit == NO_UNIT:
        return None
    return found.row.unit.lower().replace(" ", "")


def results_of(text: str) -> list[str]:
    """The registers that an instruction writes. B0 is none; a load has two, the last of which comes by its return."""
    written, loaded = RESULT.match(text), LOADED.match(text)
    found = [*([written[1]] if written else []), *([f"X{loaded[1]}"] if loaded else [])]
    return [register for register in found if register != "B0"]


def operands_of(text: str) -> list[str]:
    """The registers whose values an instruction uses, in the order in which they count, each once. B0 is none."""
    found = instruction(text)
    return found.operands if found else []


def stores(text: str) -> bool:
    """Whether an instruction stores a word of memory: its X register, or the link word of a return jump."""
    return bool(STORED.match(text))

"""Checks the pages that are generated from sources: docs/proof/calls.md, docs/work/crates.md and docs/work/checks.md.

    tools/check generated            names each page that isn't what the sources give now, and prints nothing else
    tools/check generated --write    writes the pages anew

Run it after a change of a public call, or of a comment that begins a file.
"""

import sys

from cdc6600.generating import calls, checks, crate_map
from cdc6600.shared.program import ROOT

from .parts import told

PAGES = (calls, crate_map, checks)


def main() -> int:
    """Compares the pages with what the sources give, or writes them."""
    is_writing, faults = sys.argv[1:] == ["--write"], []
    for page in PAGES:
        file, text = ROOT / page.PAGE, page.text()
        if is_writing:
            file.write_text(text, encoding="utf-8")
        elif not file.exists() or file.read_text(encoding="utf-8") != text:
            faults.append(f"{page.PAGE} isn't what its sources give: run tools/check generated --write")
    return told(faults)

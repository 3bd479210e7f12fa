"""Checks that the edit of each wrong body can be applied to the sources as they are.

    tools/check edits            prints each edit that can't be, and nothing if there is none

The old text of an edit must occur exactly once in its file, and an edit may change no contract. At most 20 edits may
say `unsure: `, which means that neither the prover nor a run tells whether their bodies are wrong. The table
docs/proof/all-wrong-bodies.txt must be as a run of `tools/wrong-bodies` has written it. This check takes seconds;
whether the prover refuses a wrong body is up to `tools/wrong-bodies`.

Run it after a change of code or of an edit.
"""

from cdc6600.crates.source import Sources
from cdc6600.crates.table import Table, Unreadable
from cdc6600.shared.program import ROOT
from cdc6600.wrong_bodies.edits import UNSURE, read_bodies
from cdc6600.wrong_bodies.kept import read_rows

from .parts import told

MOST_UNSURE = 20


def main() -> int:
    table = Table(ROOT)
    faults, unsure = [], 0
    for name in table.lines:
        folder = table.folder(name)
        bodies, found = read_bodies(folder, Sources.read(folder))
        faults += found
        unsure += sum(UNSURE in body.notes for body in bodies)
    try:
        read_rows(ROOT)
    except Unreadable as fault:
        faults.append(str(fault))
    if unsure > MOST_UNSURE:
        faults.append(f"{unsure} edits say `{UNSURE}: `, and at most {MOST_UNSURE} may")
    return told(faults)

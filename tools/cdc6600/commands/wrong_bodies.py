"""Tries the wrong bodies of the crates: the prover has to refuse each at a goal of its own function's contract.

    tools/wrong-bodies              tries the bodies that have no valid row in docs/proof/all-wrong-bodies.txt
    tools/wrong-bodies CRATE..      tries only the bodies of these crates
    tools/wrong-bodies --write      also writes the rows of a crate as soon as the crate is done
    tools/wrong-bodies --all        ignores the rows
    tools/wrong-bodies --prover     asks the prover alone, and runs no body

A wrong body is an edit in crates/NAME/wrong-bodies/ or crates/NAME/must-fail/. `rt ci` also tries the promised bodies
of the last folder, by checks of its own. docs/work/CHANGING.md says how an edit is written.
tools/cdc6600/wrong_bodies/kept.py names the inputs of a verdict.

tools/cdc6600/wrong_bodies/copies.py says why one check can judge many bodies, verdicts.py what a check refuses, and
second.py when that counts. tools/cdc6600/refuting runs the others: a body is refuted by a deck, a session or a test for
which it does something else. Of one that isn't, it can't tell. Its edit gives the reason in a line `unsure: REASON`,
and then it isn't run; else it counts as not refused. One that its contract lets through has a line `let through:
REASON`; the prover isn't asked, and a run has to refute it.

It prints a line for each body that was tried, with its verdict and the goal or the case, and a line for each body of
which it can't tell. The last lines count the verdicts of the table, all bodies, bodies that aren't refused, and bodies
of which it can't tell. The very last line is `N passed, M failed`. The status is 0 if no body counts as not refused.
"""

import argparse
import signal
import sys
import tempfile
from datetime import date
from pathlib import Path
from typing import Iterable, Sequence

from cdc6600.building import host
from cdc6600.building.building import Unproved, commit_of
from cdc6600.crates.crate import EDITS
from cdc6600.crates.kit import logic
from cdc6600.crates.table import Table, Unreadable
from cdc6600.refuting.running import refute, unsure_in
from cdc6600.shared.program import ROOT
from cdc6600.wrong_bodies.edits import UNSURE
from cdc6600.wrong_bodies.kept import ROWS, read_rows, write_rows
from cdc6600.wrong_bodies.tries import Crate, Tries, read_crate
from cdc6600.wrong_bodies.verdicts import CANT_TELL, NOT_REFUSED, Verdict


def arguments() -> argparse.Namespace:
    parser = argparse.ArgumentParser(description=__doc__, formatter_class=argparse.RawDescriptionHelpFormatter)
    parser.add_argument("crates", nargs="*", metavar="CRATE", help="a crate of crates.txt; none: all of them")
    parser.add_argument("--write", action="store_true", help=f"write {ROWS}")
    parser.add_argument("--all", action="store_true", help="ignore its rows")
    parser.add_argument("--prover", action="store_true", help="ask the prover alone")
    parser.add_argument("--at-once", type=int, default=host.places(), metavar="N",
                        help="how many checks run side by side (default: as the machine allows)")
    parser.add_argument("--root", type=Path, default=ROOT, help=argparse.SUPPRESS)
    given = parser.parse_args()
    if given.write and given.prover:
        parser.error("the verdicts of the prover alone aren't written")
    return given


def chosen(table: Table, names: Sequence[str]) -> list[str]:
    """The crates to try.

    Raises Unreadable if crates.txt doesn't list one."""
    has_edits = {file.parent.parent.name for part in EDITS for file in table.root.glob(f"crates/*/{part}/*.edit")}
    wanted = set(names) or has_edits
    for name in sorted(wanted - set(table.lines)):
        raise Unreadable(f"{name}: crates.txt lists no such crate")
    return [name for name in table.lines if name in wanted]


def not_refused(crate: Crate) -> list[str]:
    """A line for each edit of a crate that can't be read, and for each body that wasn't refused. Silence is no
    refusal."""
    lines = list(crate.faults)
    for body in crate.bodies:
        verdict = crate.verdicts.get(body.name)
        if verdict is None or verdict.kind == NOT_REFUSED:
            lines.append(f"{crate.name}/{body.name}: {verdict.words if verdict else 'it was not tried'}")
    return lines


def report(crate: Crate, given: argparse.Namespace) -> None:
    """Prints what the prover found of each of a crate's bodies, but for those of which it can't tell, and writes it if
    that is asked for."""
    if given.write:
        write_table(given.root, [crate])
    for line in not_refused(crate):
        print(f"NOT REFUSED {line}", flush=True)
    for body in (body for group in crate.groups for body in group.bodies):
        verdict = crate.verdicts[body.name]
        if verdict.refused:
            print(f"{crate.name}/{body.name}: refused at {verdict.words}", flush=True)


def run_unsure(table: Table, crates: Sequence[Crate], at_once: int) -> None:
    """Runs the bodies of which the prover can't tell, and those that their contracts let through, and prints what came
    of each. One that nothing refutes counts as not refused, unless its edit says why nobody can tell."""
    refute(table, crates, at_once)
    for crate, body in unsure_in(crates):
        if UNSURE not in body.notes:
            words = f"nothing refutes it, and its edit has no line `{UNSURE}: `"
            crate.verdicts[body.name] = Verdict(NOT_REFUSED, words)
            print(f"NOT REFUSED {crate.name}/{body.name}: {words}")


def print_unsure(crates: Iterable[Crate]) -> int:
    """Prints the bodies of which it can't tell, with the reason of the edit, or else the goal; how many they are."""
    unsure = [(crate, body) for crate in crates for body in [*crate.rested, *crate.bodies]
              if body.name in crate.verdicts and crate.verdicts[body.name].kind == CANT_TELL]
    for crate, body in unsure:
        print(f"CAN'T TELL {crate.name}/{body.name}: {body.notes.get(UNSURE) or crate.verdicts[body.name].words}")
    return len(unsure)


def try_all(table: Table, crates: Sequence[Crate], given: argparse.Namespace) -> None:
    """Tries what is left to try, and reports each crate once that is done."""
    with tempfile.TemporaryDirectory(prefix="wrong-bodies-") as room:
        tries = Tries(table, crates, room, given.at_once)
        for crate in crates:
            if not crate.groups:
                report(crate, given)
        tries.run(lambda crate: report(crate, given))


def write_table(root: Path, crates: Sequence[Crate]) -> None:
    """Replaces the rows of these crates. A body that is let through has none."""
    words = " ".join(["tools/wrong-bodies", *sys.argv[1:]])
    names, before = {crate.name for crate in crates}, read_rows(root)
    rows = {row: verdict for row, verdict in before.items() if row.body.partition("/")[0] not in names}
    for crate, body in ((crate, body) for crate in crates for body in [*crate.rested, *crate.bodies]):
        verdict = crate.verdicts.get(body.name)
        if verdict and verdict.kind != NOT_REFUSED:
            rows[crate.rows[body.name]] = verdict
    if rows != before:
        write_rows(root, rows, f"`{words}` of commit {commit_of(root)} on {date.today()}")


def work() -> int:
    given = arguments()
    table, rows = Table(given.root), {} if given.all else read_rows(given.root)
    number = logic()
    crates = [read_crate(table, name, number, rows, not given.prover) for name in chosen(table, given.crates)]
    try_all(table, crates, given)
    if not given.prover:
        run_unsure(table, crates, given.at_once)
    unsure = print_unsure(crates)
    for crate in crates:
        if crate.groups:
            print(f"{crate.name}: {len(crate.groups)} groups, {sum(crate.seconds):.0f} seconds of processor time")
    rested, bad = sum(len(crate.rested) for crate in crates), sum(len(not_refused(crate)) for crate in crates)
    total = rested + sum(len(crate.bodies) + len(crate.faults) for crate in crates)
    if given.write:
        write_table(given.root, crates)
    print(f"{rested} verdicts are those of {ROWS}")
    print(f"{total} wrong bodies, {bad} not refused, {unsure} can't tell")
    print(f"{max(total - bad - unsure, 0)} passed, {bad} failed")
    return 1 if bad else 0


def main() -> int:
    for signals in (signal.SIGTERM, signal.SIGHUP):
        signal.signal(signals, lambda *_: sys.exit(1))
    try:
        return work()
    except (Unreadable, Unproved) as reason:
        print(f"tools/wrong-bodies: {reason}")
        return 1

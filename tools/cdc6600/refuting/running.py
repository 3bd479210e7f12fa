"""Runs the bodies of which the prover can't tell whether their contract refuses them.

A body is refuted by a case in which the program writes something else with it than with the right body, or by a test
that fails with it. The program with the right bodies is proved, so such a body doesn't do what the definitions say.
This doesn't show whether the contract of its function excludes it. The tests are those of the crates above the body's
own, and are only run if no case of the program refutes it. A body whose edit says `unsure: ` isn't run.
"""

import tempfile
from concurrent.futures import ThreadPoolExecutor
from pathlib import Path
from typing import Iterable, Sequence

from cdc6600.crates.table import Table
from cdc6600.wrong_bodies.edits import UNSURE, Body
from cdc6600.wrong_bodies.tries import Crate
from cdc6600.wrong_bodies.verdicts import CANT_TELL, REFUTED, Verdict

from .cases import Cases, of_program, of_tests
from .choosing import Choice, Executable

PROGRAM = "operator_main"
# The crates from this one on are for runs by threads.
LOCK = "machine_lock"


def unsure_in(crates: Iterable[Crate]) -> list[tuple[Crate, Body]]:
    """The bodies of which it can't be told, each with its crate."""
    return [(crate, body) for crate in crates for body in crate.bodies
            if body.name in crate.verdicts and crate.verdicts[body.name].kind == CANT_TELL]


def left_in(crates: Iterable[Crate]) -> list[tuple[Crate, Body]]:
    """Those of which nobody can tell yet."""
    return [(crate, body) for crate, body in unsure_in(crates) if UNSURE not in body.notes]


def has_tests(folder: Path) -> bool:
    return any("#[test]" in file.read_text(encoding="utf-8") for file in Path(folder, "src").rglob("*.rt"))


def try_all(table: Table, crates: Sequence[Crate], executable: Executable, cases: Cases, at_once: int) -> None:
    """Tries all bodies that are left and can be chosen in an executable."""
    left = [(crate, body) for crate, body in left_in(crates) if executable.has(crate.name, body.name)]

    def difference(pair: tuple[Crate, Body]) -> str | None:
        crate, body = pair
        file = executable.wrong(crate.name, body.name)
        try:
            return cases.difference(file, LOCK in [*table.below(crate.name), crate.name])
        finally:
            file.unlink()

    with ThreadPoolExecutor(at_once) as pool:
        for (crate, body), found in zip(left, pool.map(difference, left)):
            if found:
                crate.verdicts[body.name] = Verdict(REFUTED, found)
                print(f"{crate.name}/{body.name}: refuted by {found}", flush=True)


def refute(table: Table, crates: Sequence[Crate], at_once: int) -> None:
    """Runs the bodies of which it can't be told, so many at once: by the program first, if there is one, and then by
    the tests of each crate above. It notes those that a case refutes, and prints each with its case.

    Raises Unproved if an executable with all wrong bodies can't be built."""
    if not left_in(crates):
        return
    with tempfile.TemporaryDirectory(prefix="refuting-") as room:
        choice = Choice(table, Path(room))
        if PROGRAM in table.lines:
            program = choice.built(PROGRAM)
            try_all(table, crates, program, of_program(program.right()), at_once)
        for name in (name for name in table.lines if has_tests(table.folder(name))):
            if any(crate.name in {*table.below(name), name} for crate, _ in left_in(crates)):
                tests = choice.built(name, is_test=True)
                try_all(table, crates, tests, of_tests(name, tests.right()), at_once)

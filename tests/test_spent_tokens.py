"""Checks that a token can't be forgotten: functions that let a token go are refused by the check. That is found before
any proof, so it isn't among the edits that the prover must refuse. The same functions, where each ends its token, are
accepted; so it is the forgetting that is refused.

A temporary folder gets the sources of `machine` and of what it stands on.

Run it after a change of tokens.
"""

from __future__ import annotations

import re
import shutil
from pathlib import Path

import pytest
from running import called

from cdc6600.crates.table import Table
from cdc6600.shared.program import ROOT

# The functions of the program, and what each does with its token: that of a reservation, and that of a seat.
PROGRAM = """//! Functions that are given a token.
#![tactic(auto)]

use machine::{{Computed, Finished, Loaded, Reserved, Seat}};

fn take_reserved(token: Reserved) {{ {0} }}
fn take_loaded(token: Loaded) {{ {0} }}
fn take_computed(token: Computed) {{ {0} }}
fn take_finished(token: Finished) {{ {0} }}
fn take_seat(token: Seat) {{ {1} }}

fn main(rt: HostRuntime) {{}}
"""
REFUSED = re.compile(r"^([^ ]*):\d+: error\[([^]]*)\]", re.MULTILINE)
# The line of each function, which is told with the column after it.
WANTED = [(f"src/main.rt:{line}", "linear-value-let-go") for line in range(6, 11)]


@pytest.fixture(scope="session")
def source(tmp_path_factory: pytest.TempPathFactory) -> Path:
    """The source of a program on a copy of `machine` and of what it stands on."""
    folder, table = tmp_path_factory.mktemp("crates"), Table(ROOT)
    names = [*table.below("machine"), "machine"]
    for part in (table.folder(name) / part for name in names for part in ("src", "specs", "proofs")):
        if part.is_dir():
            shutil.copytree(part, folder / part.relative_to(ROOT))
    table.write(folder, names, ["forgetting: machine"])
    shutil.copy(ROOT / "HANDLES", folder)
    file = folder / "crates/forgetting/src/main.rt"
    file.parent.mkdir(parents=True)
    return file


@pytest.mark.parametrize("reservation, seat, status, refused", [
    ("token.abandon().leave();", "token.leave();", 0, []), ("", "", 1, WANTED),
], ids=["ended", "forgotten"])
def test_tokens(source: Path, reservation: str, seat: str, status: int, refused: list[tuple[str, str]]) -> None:
    source.write_text(PROGRAM.format(reservation, seat), encoding="utf-8")
    # It has nothing to be proved.
    ran = called("env", f"--chdir={source.parents[1]}", "rt", "try", minutes=15)
    assert (ran.status, REFUSED.findall(ran.printed + ran.told)) == (status, refused)

"""Proves the program cdc6600 with all crates on which it stands, and builds it.

    tools/build-program [--unproved] [--weights] [FILE]

writes the executable to FILE, or to crates/operator_main/out/operator_main. What it was built from is written to
FILE.sources: the checksum of tools/source-sum. If that is the same now, nothing is built. If only the kit is another
one, that is reported. If another call builds the same FILE, this one waits for it.

The libraries of the crates below are kept in crates/operator_main/out/libraries, so that tools/build-library doesn't
prove these crates again.

A crate is proved over what the crates below it state, as soon as those are proved. `rt ci`, which the gate runs, does
the same, but it shares the processors among the crates that are ready when a check begins. So the long chain of crates
that stand on one another often has a single one. Here the crates of the chain use all processors; the others use one
each, and give way (by Unix's `nice`). This tool reads no tests and no wrong bodies, and holds no crate to the further
rules of `rt ci`, as those on layout and handles.

On standard error it reports which crates are proved, and about how long the others will take, by the times in
tools/cdc6600/building/crate-seconds. If a crate isn't proved, it prints the end of what the checker said of it, and
ends with status 1.
"""

import argparse
import subprocess
import tempfile
import time
from pathlib import Path

from cdc6600.building import unproved
from cdc6600.building.building import (
    PROGRAM, SOURCE_SUM, Building, Unproved, ended, kits, locked, put, source_sum, tell,
)
from cdc6600.building.forecast import MEASURED, MORE
from cdc6600.building.library import keep_libraries
from cdc6600.building.processes import run
from cdc6600.crates.kit import checker
from cdc6600.crates.table import Table
from cdc6600.shared.program import ROOT

TARGET, UNPROVED = "x86_64-unknown-linux-gnu", ".unproved"
WEIGHTS_HEAD = """\
# The seconds of a processor that each crate took, as tools/build-program --weights writes them. A crate without a line
# here is judged by its lines of code.
"""


def linked(building: Building, file: Path) -> Path:
    """Links the program with the kit's few calls of the system, into a file."""
    libraries = [f"{building.kit}/c/libos_c.a", f"{building.kit}/c/liblibc_c.a"]
    words = [f"{building.kit}/bin/rattle-link", "--target", TARGET, "--toolchain", f"{building.kit}/toolchain"]
    ran = run([*words, "-o", str(file), str(building.made(building.top)), *libraries], building.room)
    if ran.status:
        raise Unproved(f"{ran.said.rstrip()}\ncdc6600: {building.top} isn't linked")
    return file


def write_weights(building: Building) -> None:
    """Writes the seconds of a processor that each crate took, or would have taken in one process."""
    took = {name: seconds / (MORE if building.jobs(name) > 1 else 1) for name, seconds in building.seconds.items()}
    rows = [f"{name} {took[name]:.0f}\n" for name in building.plan.crates]
    (building.table.root / MEASURED).write_text("".join([WEIGHTS_HEAD, *rows]), encoding="utf-8")


def made(given: argparse.Namespace, root: Path, room: Path, sources: bytes) -> Path:
    """Builds the executable of these sources in a folder; its file."""
    table = Table(root)
    if given.unproved:
        tell("building the program without its proof, which takes one or two minutes")
        return unproved.build(table, checker().parent.parent, given.program, room)
    building = Building(table, given.program, PROGRAM, room)
    building.prove_all()
    if given.weights:
        write_weights(building)
    file = linked(building, room / "linked")
    keep_libraries(building, sources)
    return file


def tell_kits(kept: Path, now: bytes) -> None:
    """Reports that the program is built again because of another kit, if that is the only reason."""
    found = kits(kept.read_bytes(), now) if kept.is_file() else None
    if found:
        tell(f"the program is built again because the kit is `{found[1]}` now and was `{found[0]}`")


def arguments() -> argparse.Namespace:
    parser = argparse.ArgumentParser(description=__doc__, formatter_class=argparse.RawDescriptionHelpFormatter)
    parser.add_argument("--unproved", action="store_true", help="build it without its proof, as FILE.unproved")
    parser.add_argument("--weights", action="store_true", help=f"build it in any case, and write {MEASURED}")
    parser.add_argument("file", type=Path, nargs="?", metavar="FILE", help="where the executable is written to")
    parser.add_argument("--root", type=Path, default=ROOT, help=argparse.SUPPRESS)
    parser.add_argument("--program", default="operator_main", help=argparse.SUPPRESS)
    return parser.parse_args()


def work() -> int:
    given = arguments()
    root = given.root.resolve()
    file = given.file or root / f"crates/{given.program}/out/{given.program}"
    file = file.with_name(f"{file.name}{UNPROVED * given.unproved}")
    sources = file.with_name(f"{file.name}.sources")

    def is_built() -> bool:
        words = [str(SOURCE_SUM), "--of", str(sources.absolute()), str(root)]
        return file.is_file() and not given.weights and not subprocess.run(words, check=False).returncode

    # Many calls at once that have nothing to build needn't wait for each other.
    if is_built():
        return 0
    with locked(file), tempfile.TemporaryDirectory(prefix="cdc6600-") as room:
        if is_built():
            return 0
        begun, text = time.time(), source_sum(root)
        tell_kits(sources, text)
        it = made(given, root, Path(room), text)
        # Without this file the executable doesn't count, so it is never taken for that of other sources.
        sources.unlink(missing_ok=True)
        put(it, file, begun)
        sources.write_bytes(text)
    return 0


def main() -> int:
    return ended(work)

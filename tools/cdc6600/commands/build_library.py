"""Proves the crate `embedding` with all crates on which it stands, and builds the libraries for C of it.

    tools/build-library [--target TARGET] FOLDER      writes libcdc6600.a, libcdc6600.so and cdc6600.h to FOLDER
    tools/build-library --unproved FOLDER             writes libcdc6600.so.unproved

The archive has the crate's functions and the kit's few calls of malloc and its like; it needs the C library alone. The
shared library is linked of it by the kit's linker. With the target aarch64-unknown-linux-gnu the archive is for Linux
on ARM. Then it lacks those calls, which are ten lines of C in docs/use/emulators.md, and there is no shared library.

The libraries are also kept in crates/embedding/out, where the tools find the shared one. If those there are newer than
every source, nothing is proved. The crates are proved as tools/build-program proves them. Where `rt ci` has left the
libraries of all that stand below in the checkout, and each is newer than every source of its own, these aren't proved
again. Otherwise those aren't that tools/build-program has kept of the sources as they are.

With --unproved nothing is proved, which is told. What it was built from is written to libcdc6600.so.unproved.sources.

On standard error it tells which crates are proved, and about how long the others will take. Where one isn't proved, it
prints the end of what the checker said of it, and ends with status 1.
"""

import argparse
import shutil
import sys
import tempfile
import time
from pathlib import Path

from cdc6600.building.building import ended, locked, put, source_sum, tell
from cdc6600.building.library import ARCHIVE, HEADER, NATIVE, SHARED, TARGETS, kept
from cdc6600.crates.kit import checker
from cdc6600.crates.table import Table
from cdc6600.module import unproved
from cdc6600.shared.program import ROOT


def arguments() -> argparse.Namespace:
    parser = argparse.ArgumentParser(description=__doc__, formatter_class=argparse.RawDescriptionHelpFormatter)
    parser.add_argument("--unproved", action="store_true", help="build the shared library without its proof")
    parser.add_argument("--target", default=NATIVE, metavar="TARGET", help=" or ".join(TARGETS))
    parser.add_argument("folder", type=Path, metavar="FOLDER", help="where they and their header are written to")
    return parser.parse_args()


def put_unproved(file: Path) -> None:
    """Builds the shared library of the sources without their proof."""
    tell("UNPROVED: the library is built from the sources without their proof, which takes one or two minutes")
    with locked(file), tempfile.TemporaryDirectory(prefix="cdc6600-") as room:
        begun, sources = time.time(), source_sum(ROOT)
        put(unproved.library(Table(ROOT), checker().parent.parent, Path(room)), file, begun)
        file.with_name(f"{file.name}.sources").write_bytes(sources)


def work() -> int:
    given = arguments()
    if given.target not in TARGETS:
        print(f"{sys.argv[0]}: the target {given.target} isn't {' or '.join(TARGETS)}", file=sys.stderr)
        return 2
    if given.unproved:
        put_unproved(given.folder / f"{SHARED}.unproved")
        return 0
    made = kept(given.target)
    for name in (ARCHIVE, SHARED) if given.target == NATIVE else (ARCHIVE,):
        put(made / name, given.folder / name, (made / name).stat().st_mtime)
    shutil.copy(HEADER, given.folder / HEADER.name)
    return 0


def main() -> int:
    return ended(work)

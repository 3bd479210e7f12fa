"""The crate `embedding`, proved with all crates below it, as a static library, as the shared one that is linked of it,
and as the bitcode of these libraries.

What is made is kept in the crate's folder `out`, for tools/build-library, tools/build-module, the tools that ask the
machine (tools/cdc6600/asking) and the checks.
"""

import shutil
import tempfile
import time
from pathlib import Path
from typing import Iterable, Sequence

from cdc6600.crates.kit import checker
from cdc6600.crates.table import Table
from cdc6600.shared.program import ROOT, is_current

from . import host, keeping
from .building import (
    LIBRARY, Building, Product, Unproved, locked, proved, put, source_sum, tell, words_of,
)
from .processes import run

CRATE, PROGRAM = "embedding", "operator_main"
HEADER = ROOT / "crates/embedding/include/cdc6600.h"
# The functions that the shared library exports.
EXPORTED = HEADER.with_name("cdc6600.map")
KEPT = ROOT / "crates/embedding/out"
ARCHIVE, BITCODE = "libcdc6600.a", "embedding.bc"
SHARED, SONAME = "libcdc6600.so", "libcdc6600.so.0"
NATIVE = "x86_64-unknown-linux-gnu"
# For another processor the kit has no calls of the C library, and the caller supplies them.
TARGETS = (NATIVE, "aarch64-unknown-linux-gnu")
PARTS = ("src", "specs", "proofs")


def newest(table: Table, names: Iterable[str]) -> float:
    """When the youngest source of these crates was written."""
    files = [file for name in names for part in PARTS for file in (table.folder(name) / part).rglob("*")]
    return max(file.stat().st_mtime for file in [*files, table.root / "crates.txt"])


def kept_by_program(table: Table) -> Path:
    """The folder in which tools/build-program keeps the libraries of crates below the program."""
    return table.folder(PROGRAM) / "out/libraries"


def keep_libraries(building: Building, sources: bytes) -> None:
    """Keeps the libraries that were built below the program and stand below the crate too, with the sum of their
    sources."""
    folder, table = kept_by_program(building.table), building.table
    below = table.below(CRATE) if CRATE in table.lines else ()
    try:
        shutil.rmtree(folder, ignore_errors=True)
        folder.mkdir(parents=True)
        for name in building.proved.intersection(below):
            shutil.move(building.made(name), folder)
        folder.with_name(f"{folder.name}.sources").write_bytes(sources)
    except OSError as fault:
        tell(f"the libraries of the crates aren't kept for tools/build-library: {fault.strerror}")


def left_by_rt_ci(table: Table, names: Iterable[str]) -> dict[str, Path]:
    """The libraries of these crates that `rt ci` has left in the checkout, if it has left all of them and none is older
    than a source; otherwise none. They fit only one another. Those of the kit's other commands have a stamp."""
    found = {name: table.folder(name) / "out/rlib" / f"{name}.rlib" for name in names}
    are_left = all((it / "format").is_file() and not it.with_name("stamp").exists() and
                   it.stat().st_mtime >= newest(table, [*table.below(name), name]) for name, it in found.items())
    return found if are_left else {}


def left_libraries(table: Table) -> dict[str, Path]:
    """The libraries below the crate that `rt ci` has left, or otherwise those that tools/build-program has left of the
    sources as they are."""
    folder, below = kept_by_program(table), table.below(PROGRAM)
    kept_ones = {name: folder / f"{name}.rlib" for name in table.below(CRATE) if name in below}
    return left_by_rt_ci(table, table.below(CRATE)) or (kept_ones if is_current(folder) else {})


def proved_libraries(table: Table, names: Sequence[str], room: Path) -> dict[str, Path]:
    """The libraries of these crates, lowest first, proved one after another.

    Raises Unproved with the end of the checker's output if a crate isn't proved."""
    found = dict[str, Path]()
    for name in names:
        words = words_of(table, name, found, str(table.folder(name) / "src/lib.rt"))
        words += ["--jobs", str(host.places()), "--statements", "-o", str(room / f"{name}.rlib")]
        proved(name, [str(checker()), "build", *words], room)
        found[name] = room / f"{name}.rlib"
    return found


def archive(building: Building, target: str) -> Path:
    """Puts the crate's functions, and the kit's calls of the C library if it has them, into one archive; its file."""
    file, calls = building.room / ARCHIVE, [f"{building.kit}/c/liblibc_c.a"] * (target == NATIVE)
    ran = run([f"{building.kit}/toolchain/bin/llvm-ar", "qLcs", str(file), str(building.made(CRATE)), *calls],
              building.room)
    if ran.status:
        raise Unproved(f"{ran.said.rstrip()}\ncdc6600: the archive isn't made")
    return file


def shared(kit: Path, room: Path, *parts: str | Path) -> Path:
    """Links these parts with the C library into a shared one; its file."""
    words = [f"{kit}/toolchain/bin/ld.lld", "-shared", f"--soname={SONAME}", f"--version-script={EXPORTED}",
             "--gc-sections", *map(str, parts), f"{kit}/toolchain/lib/libc.so.6", "-o", str(room / SHARED)]
    ran = run(words, room)
    if ran.status:
        raise Unproved(f"{ran.said.rstrip()}\ncdc6600: the shared library isn't linked")
    return room / SHARED


def prove(table: Table, target: str, room: Path, folder: Path) -> None:
    """Proves the crate, and keeps its archive and its bitcode in a folder."""
    begun, bitcode = time.time(), room / BITCODE
    words = ("--target", target) if target != NATIVE else ()
    product = Product(LIBRARY.source, LIBRARY.ending, (*LIBRARY.words, *words))
    building = Building(table, CRATE, product, room, left_libraries(table))
    building.toolchain = keeping.toolchain(building.kit, room, bitcode)
    building.prove_all()
    put(bitcode, folder / BITCODE, begun)
    put(archive(building, target), folder / ARCHIVE, begun)


def keep_shared(folder: Path, sources: bytes) -> None:
    """Keeps the shared library that is linked of an archive, with the sum of the sources of both."""
    archived, file = folder / ARCHIVE, folder / SHARED
    if not file.is_file() or file.stat().st_mtime < archived.stat().st_mtime:
        with tempfile.TemporaryDirectory(prefix="cdc6600-") as room:
            parts = ("--whole-archive", archived, "--no-whole-archive")
            put(shared(checker().parent.parent, Path(room), *parts), file, archived.stat().st_mtime)
    file.with_name(f"{SHARED}.sources").write_bytes(sources)


def kept(target: str = NATIVE) -> Path:
    """The folder with the archive, the shared library and the bitcode of the sources as they are. If they are of
    others, or older, the crate is proved.

    Raises Unproved if it isn't proved."""
    folder, table = KEPT if target == NATIVE else KEPT / target, Table(ROOT)
    files = [folder / name for name in (ARCHIVE, BITCODE)]
    if target == NATIVE and is_current(folder / SHARED) and all(it.is_file() for it in files):
        return folder
    with locked(folder / ARCHIVE):
        sources, changed = source_sum(ROOT), newest(table, [*table.below(CRATE), CRATE])
        if any(not it.is_file() or it.stat().st_mtime < changed for it in files):
            with tempfile.TemporaryDirectory(prefix="cdc6600-") as room:
                prove(table, target, Path(room), folder)
        if target == NATIVE:
            keep_shared(folder, sources)
    return folder

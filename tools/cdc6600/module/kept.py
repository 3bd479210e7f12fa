"""The modules of the sources as they are, which are kept next to the bitcode that they are made of."""

import shutil
import tempfile
from pathlib import Path

from cdc6600.building import library
from cdc6600.building.building import locked
from cdc6600.crates.kit import checker

from .module import FOLDER, LOWERING, Making

# With 64-bit addresses, and with 32-bit ones.
WIDE, NARROW = "cdc6600.wasm", "cdc6600-32.wasm"


def made(bitcode: Path) -> dict[str, bytes | None]:
    """The modules of some bitcode, by their names. That with 32-bit addresses is none without binaryen."""
    with tempfile.TemporaryDirectory(prefix="cdc6600-") as room:
        making = Making(checker().parent.parent, Path(room))
        wide = making.module(making.text_of(bitcode))
        return {WIDE: wide, NARROW: making.lowered(wide)}


def kept() -> dict[str, bytes | None]:
    """The same of the proved crate. If they are older than a source, they are made.

    Raises Unproved if a crate isn't proved."""
    folder = library.kept()
    sources = [folder / library.BITCODE, library.HEADER, *FOLDER.iterdir()]
    wanted = [folder / name for name in (WIDE, NARROW)[: 2 if shutil.which(LOWERING) else 1]]
    with locked(folder / WIDE):
        changed = max(it.stat().st_mtime for it in sources)
        if any(not it.is_file() or it.stat().st_mtime < changed for it in wanted):
            for name, module in made(folder / library.BITCODE).items():
                if module is not None:
                    (folder / name).write_bytes(module)
        found = {it.name: it.read_bytes() for it in wanted}
    return {WIDE: found[WIDE], NARROW: found.get(NARROW)}

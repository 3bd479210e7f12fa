"""Proves the crate `embedding` with all crates on which it stands, and builds the WebAssembly module of it.

    tools/build-module [--unproved] FOLDER      writes these files to FOLDER

    cdc6600.wasm       the module, with the functions of the library for C; it imports nothing
    cdc6600-32.wasm    the same for engines without 64-bit addresses, such as Node 20
    cdc6600.mjs        the functions for JavaScript
    cdc6600.d.mts      their types, for TypeScript and editors
    cdc6600.html       a page on which a machine is driven by hand, with the module in it

cdc6600-32.wasm is made by `wasm-opt` of Debian's package binaryen. If that isn't installed, it is left out, and the
tool says so.

The crates are proved as tools/build-library proves them. What they were compiled to is kept in crates/embedding/out,
and so are the modules. If no source is newer, nothing is proved or made. tools/cdc6600/module/module.py says how the
module is made, and what isn't proved of that.

With --unproved nothing is proved, which is told, and `isProved` of cdc6600.mjs is false.

docs/try has the page, the module with 32-bit addresses and its calls. `tools/check built-files --write` makes them by
this tool and writes them there.
"""

import argparse
import tempfile
from pathlib import Path

from cdc6600.building.building import ended, tell
from cdc6600.crates.kit import checker
from cdc6600.crates.table import Table
from cdc6600.module import unproved
from cdc6600.module.files import files
from cdc6600.module.kept import NARROW, WIDE, kept
from cdc6600.module.module import LOWERING, Making, marked
from cdc6600.shared.program import ROOT


def unproved_modules() -> dict[str, bytes | None]:
    """The modules of the sources without their proof, by their names."""
    tell("UNPROVED: the module is built from the sources without their proof, which takes a minute or two")
    kit = checker().parent.parent
    with tempfile.TemporaryDirectory(prefix="cdc6600-") as name:
        making = Making(kit, Path(name))
        text = making.text_of(unproved.bitcode(Table(ROOT), kit, Path(name)))
        wide = making.module(unproved.exporting(text))
        narrow = making.lowered(wide)
    return {WIDE: marked(wide), NARROW: narrow and marked(narrow)}


def work() -> int:
    parser = argparse.ArgumentParser(description=__doc__, formatter_class=argparse.RawDescriptionHelpFormatter)
    parser.add_argument("--unproved", action="store_true", help="build it without its proof")
    parser.add_argument("folder", type=Path, metavar="FOLDER", help="where the files go")
    given = parser.parse_args()
    folder, modules = given.folder, unproved_modules() if given.unproved else kept()
    folder.mkdir(parents=True, exist_ok=True)
    for name, content in files(modules).items():
        if content is None:
            tell(f"{name} isn't made: {LOWERING} is missing (apt-get install binaryen)")
            (folder / name).unlink(missing_ok=True)
        else:
            (folder / name).write_bytes(content)
    return 0


def main() -> int:
    return ended(work)

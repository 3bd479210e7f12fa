"""Checks the built files in docs/try, by which people without the toolchain drive the machine.

    tools/check built-files            names each file that is missing or has other bytes, and prints nothing else
    tools/check built-files --write    makes the files and writes them there

- The calls for JavaScript are those of the crate `embedding`. The page is that of the sources as they are, with the
  stored module in it.
- The module that tools/build-module makes now has the bytes of the stored one. That tool proves the crate first if a
  source is newer than what it has kept. made-with.txt names the kit and the version of `wasm-opt`.

The module is left out if `rt` or `wasm-opt` isn't installed, or if made-with.txt names another kit or another version
of `wasm-opt`: then its bytes may differ although the sources are the same. The check reports that.

--write needs `wasm-opt`. CDC6600_MODULE may name a folder that tools/build-module has filled; one without its proof
isn't written.

Run it after a change of the crate `embedding` or a crate below it, of cdc6600.mjs, of tools/cdc6600/module, of
tools/cdc6600/driving or the panel of tools/cdc6600/drawing, of the assembler, or of a deck or a session.
"""

import os
import shutil
import subprocess
import sys
import tempfile
from pathlib import Path

from cdc6600.building.building import kit_name
from cdc6600.driving.driving import NAME
from cdc6600.module.files import BUILT, calls, page_with
from cdc6600.module.kept import NARROW
from cdc6600.module.module import LOWERING, marked
from cdc6600.shared.ending import ended
from cdc6600.shared.program import ROOT, tell
from cdc6600.shared.waiting import Missing, run

from .debian import absent, how_to_install

MADE_WITH = "made-with.txt"
WRITING = "tools/check built-files --write"


def lowering() -> str:
    """The line by which `wasm-opt` says its version."""
    return str(run([LOWERING, "--version"], capture_output=True, text=True).stdout).strip()


def made_with() -> bytes:
    """What made-with.txt has of a module that is made now."""
    return f"{kit_name()}\n{lowering()}\n".encode()


def stored(name: str) -> bytes:
    """What a file of docs/try has, or nothing if it isn't there."""
    file = BUILT / name
    return file.read_bytes() if file.is_file() else b""


def why_left_out() -> str:
    """Why the module can't be compared, or nothing if it can."""
    for program in ("rt", LOWERING):
        if not shutil.which(program):
            return f"{program} isn't installed"
    named, here = (text.decode(errors="replace").splitlines() for text in (stored(MADE_WITH), made_with()))
    others = [f"it was made with {was}, and here is {now}" for was, now in zip(named, here) if was != now]
    return others[0] if others else ""


def module() -> bytes:
    """The module with 32-bit addresses that tools/build-module makes, or has made in the folder CDC6600_MODULE."""
    with tempfile.TemporaryDirectory() as room:
        folder = Path(os.environ.get("CDC6600_MODULE") or room)
        if "CDC6600_MODULE" not in os.environ:
            subprocess.run([ROOT / "tools/build-module", folder], check=True)
        return (folder / NARROW).read_bytes()


def fault_of(name: str, wanted: bytes) -> list[str]:
    """A line if a file of docs/try hasn't what it should have."""
    came, path = stored(name), (BUILT / name).relative_to(ROOT)
    if came == wanted:
        return []
    return [f"{path} {'differs from what is made now' if came else 'is missing'}: run {WRITING}"]


def compared() -> list[str]:
    """The lines of all faults."""
    found = [it for name, text in calls().items() for it in fault_of(name, text)]
    found += fault_of(NAME, page_with(stored(NARROW)))
    why = why_left_out()
    if why:
        print(f"{sys.argv[0]}: {NARROW} is left out: {why}", file=sys.stderr)
        return found
    return found + fault_of(NARROW, module()) + fault_of(MADE_WITH, made_with())


def write() -> int:
    """Makes all files, and writes them."""
    if lacking := absent((LOWERING,)):
        raise Missing(f"{LOWERING} missing: {how_to_install(lacking)}")
    made = module()
    if made.endswith(marked(b"")):
        raise Missing("the module is built without its proof, and isn't written")
    for name, text in {**calls(), NARROW: made, NAME: page_with(made), MADE_WITH: made_with()}.items():
        (BUILT / name).write_bytes(text)
    return 0


def work() -> int:
    if sys.argv[1:] == ["--write"]:
        return write()
    return tell(compared())


def main() -> int:
    return ended("tools/check built-files", work, Missing, OSError, subprocess.CalledProcessError)

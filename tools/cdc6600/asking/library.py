"""The shared library of the proved machine: where it is, and its functions.

CDC6600_LIBRARY may name the folder that has it. Otherwise it is the one that tools/install put beside the tools or, in
a checkout, the one that tools/build-library makes. If the program that runs is the one without its proof, the library
is made without a proof too.
"""

import importlib.util
import os
import subprocess
import sys
from functools import cache
from pathlib import Path
from types import ModuleType
from typing import Any

from cdc6600.shared.ending import printable
from cdc6600.shared.program import BUILT, IS_CHECKOUT, ROOT, UNPROVED, is_current, named_program

# The functions are declared by the example in Python.
DECLARATIONS = ROOT / "crates/embedding/examples/cdc6600.py"
SHARED = "libcdc6600.so"
KEPT = ROOT / ("crates/embedding/out" if IS_CHECKOUT else "../../../lib/cdc6600") / SHARED
KEPT_UNPROVED = KEPT.with_name(f"{SHARED}.unproved")
OTHER = "CDC6600_LIBRARY=FOLDER names the folder of another one"
# How the system's loader says that it has no memory.
NO_ROOM = "failed to map segment"


class NoLibrary(SystemExit):
    """There is no such library. It ends the script with a line that says so."""

    def __init__(self, what: object) -> None:
        super().__init__(printable(f"{sys.argv[0]}: {what}; {OTHER}"))


def tell(words: str) -> None:
    """Tells something of the library, after the name of the script."""
    print(printable(f"{sys.argv[0]}: {words}"), file=sys.stderr, flush=True)


def build(*words: str) -> None:
    """Builds the library where the tools look for it."""
    if subprocess.run([f"{ROOT}/tools/build-library", *words, str(KEPT.parent)], check=False).returncode:
        raise NoLibrary("the library could not be built")


def is_unproved() -> bool:
    """Whether the program that runs in a checkout is the one without its proof."""
    if named := named_program():
        return named == str(UNPROVED)
    return not is_current(BUILT) and is_current(UNPROVED)


def unproved_path() -> Path:
    """The unproved library. Reports that it is unproved, unless CDC6600 names the unproved program. Builds it first if
    the sources have changed."""
    if not named_program():
        tell("UNPROVED: the library is built from the sources without their proof")
    if not is_current(KEPT_UNPROVED):
        build("--unproved")
    return KEPT_UNPROVED


def library_path() -> Path:
    """The library that CDC6600_LIBRARY names, or that is installed, or that of the sources as they are."""
    if os.environ.get("CDC6600_LIBRARY"):
        return Path(os.environ["CDC6600_LIBRARY"]) / SHARED
    if IS_CHECKOUT and not is_current(KEPT):
        if is_unproved():
            return unproved_path()
        if not KEPT.exists():
            tell(f"proving and building the library first, which takes some three minutes, or ten without the crates "
                 f"of the program; {OTHER}")
        build()
    return KEPT


@cache
def declarations() -> ModuleType:
    """The module of the example that declares the functions."""
    spec = importlib.util.spec_from_file_location("cdc6600_declarations", DECLARATIONS)
    assert spec and spec.loader
    module = importlib.util.module_from_spec(spec)
    spec.loader.exec_module(module)
    return module


@cache
def library() -> Any:
    """The functions of the library.

    Raises NoLibrary where there is none, and MemoryError where there is no memory for it."""
    path = library_path()
    try:
        return declarations().Library(path)
    except OSError as fault:
        if NO_ROOM in str(fault):
            raise MemoryError from None
        raise NoLibrary(fault) from None
    except AttributeError as fault:
        raise NoLibrary(f"{path}: it is the library of another version: {fault}") from None

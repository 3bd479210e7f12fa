"""The files that tools/build-module writes, and those of them that docs/try has."""

from typing import Mapping

from cdc6600.driving.driving import NAME, page
from cdc6600.shared.program import ROOT

from .kept import NARROW, WIDE

CALLS = ROOT / "crates/embedding/javascript"
# What is built and is in the repository all the same, for people without the toolchain.
BUILT = ROOT / "docs/try"


def calls() -> dict[str, bytes]:
    """The calls for JavaScript and their types, by the names of their files."""
    return {file.name: file.read_bytes() for file in sorted(CALLS.iterdir())}


def page_with(module: bytes) -> bytes:
    return page(module).encode()


def files(modules: Mapping[str, bytes | None]) -> dict[str, bytes | None]:
    """What each file has, by its name, for modules by their names. A module that isn't made has nothing."""
    return {**modules, **calls(), NAME: page_with(modules[NARROW] or modules[WIDE] or b"")}

"""A checkout with a program of three crates, for the tests of what proves and builds it."""

from __future__ import annotations

import os
import shutil
import subprocess
from pathlib import Path
from typing import Any

from cdc6600.shared.program import ROOT
from cdc6600.shared.waiting import finish

FUNCTION = """//! {0}.
#![tactic(auto)]

ghost use Rattle.std.specs.Prelude.{{◌≡◌}};

/// {0}.
pub fn {1}() -> u64
    ensures {{ result ≡ {2} }}
{{
    {3}
}}
"""
# The sources of three crates, each of which calls the one before it.
SOURCES = {
    "lower/src/lib.rt": FUNCTION.format("The smallest number above none", "one", 1, 1),
    "upper/src/lib.rt": FUNCTION.format("Twice that number", "two", 2, "lower::one() + lower::one()"),
    "{main}/src/main.rt": """//! A program that does nothing to be seen.
#![tactic(auto)]

fn main() {
    let _ = upper::two();
}
""",
}
# The list of crates has comments and empty lines, which count for nothing.
TABLE = "# The lower one first.\n\n# Low\nlower:\n\n  # High\nupper: lower\n{main}: upper\n"
# What the library for C is of: a crate that stands on one of the program's crates and on another one.
OF_LIBRARY = {
    "beside/src/lib.rt": "", "embedding/src/lib.rt": "", "embedding/include/cdc6600.h": "",
    "embedding/include/cdc6600.map": "",
}
TABLE_OF_LIBRARY = "beside: lower\nembedding: beside upper\n"
# This kit notes each crate that it is to prove, and waits until there is a file `go`.
KIT = ROOT / "tests/kit"


def write_all(folder: Path, files: dict[str, str]) -> None:
    """Writes files below a folder."""
    for path, text in files.items():
        (folder / path).parent.mkdir(parents=True, exist_ok=True)
        (folder / path).write_text(text, encoding="utf-8")


def write_workspace(root: Path, main: str, others: str = "") -> None:
    """Writes the three crates, with this name of the program's crate, and their list with further lines."""
    write_all(root, {"crates.txt": TABLE.replace("{main}", main) + others})
    write_all(root / "crates", {path.replace("{main}", main): text for path, text in SOURCES.items()})


class Checkout:
    """A copy of the repository with these crates instead of its own, and a kit that proves nothing."""

    def __init__(self, room: Path) -> None:
        self.room, self.root, self.told = room, room / "root", ""
        shutil.copytree(KIT, room / "kit")
        left_out = shutil.ignore_patterns("checks", "gate", "__pycache__")
        for name in ("tools", "docs"):
            shutil.copytree(ROOT / name, self.root / name, ignore=left_out)
        shutil.copy(ROOT / "cdc6600", self.root)
        write_workspace(self.root, "operator_main", TABLE_OF_LIBRARY)
        write_all(self.root / "crates", OF_LIBRARY)
        self.built = self.root / "crates/operator_main/out/operator_main"
        self.notes, self.go = room / "notes", room / "go"
        self.notes.touch()
        self.go.touch()

    def start(
        self, *words: str | Path, root: Path | None = None, command: str = "cdc6600", has_kit: bool = True,
        stderr: Any = subprocess.PIPE,
    ) -> subprocess.Popen[str]:
        """Calls the script or another one; its process."""
        words = (root or self.root) / command, *words
        how: dict[str, Any] = {"stdout": subprocess.PIPE, "stderr": stderr, "env": self.environment(has_kit)}
        return subprocess.Popen(words, text=True, **how)

    def environment(self, has_kit: bool = True) -> dict[str, str]:
        """The variables of a call, with this kit or none."""
        folders = [it for it in os.environ["PATH"].split(":") if not (Path(it) / "rt").exists()]
        path = ":".join([*[str(self.room / "kit/bin")] * has_kit, *folders])
        return {**os.environ, "PATH": path, "NOTES": str(self.notes), "GO": str(self.go), "CDC6600": ""}

    def answer(self, *words: str | Path, **how: Any) -> tuple[str, list[str]]:
        """Calls the script; what it prints, and the names of the crates that were proved for it."""
        before = len(self.noted())
        with self.start(*words, **how) as process:
            printed, self.told = finish(process, " ".join(map(str, words)))
        assert process.returncode == 0, self.told
        return printed, self.noted()[before:]

    def noted(self) -> list[str]:
        """The names of the crates that were proved."""
        return self.notes.read_text(encoding="utf-8").split()

    def change(self, crate: str, text: str) -> None:
        """Writes the list of a crate's definitions."""
        write_all(self.root / "crates", {f"{crate}/specs/Lib.antt": text})

    def build_library(self) -> list[str]:
        """The names of the crates that are proved for the library."""
        printed, proved = self.answer(self.room / "made", command="tools/build-library")
        assert printed == "" and (self.room / "made/libcdc6600.so").exists()
        return proved

"""Tries the programs and modules that the checks need, by `tools/check --needs`, on a machine that was just set up.

Each program of tools/debian-packages that is installed does a small piece of work, and so does the kit. The checks that
aren't left out are imported, by pytest if they are tests. So it is seen in two minutes, before anything is proved,
whether a check would fail for want of a program, a module or a header.
"""

import os
import subprocess
import sys
import tempfile
from typing import Sequence

from cdc6600.checks.debian import MODULES, needed, python_with
from cdc6600.shared.program import ROOT

from .parts import file_of, is_test, module

# The text of a program, and the shell command that compiles and runs it.
COMPILED = {
    "cc": ("#include <stdio.h>\nint main(void) { return puts(\"\") < 0; }\n", '${CC:-cc} -x c -o "$0" - && "$0"'),
    "rustc": ("fn main() {}\n", 'rustc -o "$0" - && "$0"'),
}
# Nothing is built for an import.
NOT_BUILT = {"CDC6600": "/bin/true", "CDC6600_LIBRARY": "/nonexistent"}


def ran(words: Sequence[str], text: str = "") -> str | None:
    """What a command says if it fails, or None if it succeeds."""
    path = os.pathsep.join([str(ROOT / "tools"), str(ROOT / "tests")])
    environment = {**os.environ, **NOT_BUILT, "PYTHONPATH": path, "PYTHONDONTWRITEBYTECODE": "1"}
    try:
        done = subprocess.run(words, input=text, cwd=ROOT, env=environment, check=False, stdout=subprocess.PIPE,
                              stderr=subprocess.STDOUT, encoding="utf-8", errors="replace")
    except OSError as fault:
        return f"{words[0]}: {fault.strerror}"
    return f"{' '.join(words)}\n{done.stdout}" if done.returncode else None


def fault_of_program(name: str) -> str | None:
    """Why a program of the list can't do its work, or None if it can."""
    if name not in COMPILED:
        return ran([name, "--version"])
    text, line = COMPILED[name]
    with tempfile.TemporaryDirectory(prefix="cdc6600-") as room:
        return ran(["sh", "-c", line, f"{room}/made"], text)


def tried(names: list[str]) -> tuple[int, int]:
    """How much of what these checks need is there, and how much isn't. Each fault is printed."""
    collecting = [python_with("pytest"), "-m", "pytest", "--collect-only", "-p", "no:cacheprovider"]
    modules = ", ".join(module(name) for name in names if not is_test(name))
    programs = [it.program for it in needed() if it.is_installed() and it.program not in MODULES]
    found = {"rt": ran(["rt", "version"]), **{name: fault_of_program(name) for name in programs},
             "the checks": ran([sys.executable, "-c", f"import {modules}"]),
             "the tests": ran([*collecting, *(file_of(name) for name in names if is_test(name))])}
    for name, fault in found.items():
        print(*[f"{name}: {fault}\n"] * (fault is not None), sep="", end="", flush=True)
    faults = [it for it in found.values() if it]
    return len(found) - len(faults), len(faults)

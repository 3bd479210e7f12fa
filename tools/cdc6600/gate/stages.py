"""Runs the checks of a stage of the gate side by side, and counts the results."""

import subprocess
from concurrent.futures import ThreadPoolExecutor
from typing import Any

from cdc6600.checks.debian import how_to_install, missing, names_of, provide
from cdc6600.shared.program import ROOT

from .needs import tried
from .parts import STAGES, called, command

PIPED: dict[str, Any] = {"stdout": subprocess.PIPE, "stderr": subprocess.STDOUT, "text": True, "errors": "replace"}
# The words by which a check reports that it leaves something out.
LEFT_OUT = " left out: "


def is_silent(name: str) -> bool:
    """Runs a check; whether it ends with status 0. Prints its output if it fails, or if it leaves a part out."""
    ran = subprocess.run(command(name), **PIPED, cwd=ROOT, check=False)
    if ran.returncode or LEFT_OUT in ran.stdout:
        print(f"{called(name)} ended with status {ran.returncode}:\n{ran.stdout}", end="", flush=True)
    return ran.returncode == 0


def allowed(names: tuple[str, ...]) -> list[str]:
    """The checks whose programs are all installed. Prints the names of the others."""
    lacking = {name: missing(name) for name in names}
    for name, lines in lacking.items():
        if lines:
            print(f"{called(name)}{LEFT_OUT}{names_of(lines)} isn't installed: {how_to_install(lines)}")
    return [name for name in names if not lacking[name]]


def ended(passed: int, failed: int) -> int:
    """Prints the count; the status."""
    print(f"{passed} passed, {failed} failed", flush=True)
    return 1 if failed else 0


def stage(name: str) -> int:
    """Runs the checks of a stage."""
    names = allowed(STAGES[name])
    with ThreadPoolExecutor(len(names)) as pool:
        found = list(pool.map(is_silent, names))
    return ended(found.count(True), found.count(False))


def needs() -> int:
    """Tries the programs and modules that the checks need, and runs no check."""
    return ended(*tried(allowed(tuple(name for names in STAGES.values() for name in names))))


def install() -> int:
    """Installs missing programs, if root calls it."""
    if told := provide():
        print(told, flush=True)
    return 0

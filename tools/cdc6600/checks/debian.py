"""The programs of other projects that some checks call, which tools/debian-packages lists with Debian's packages. A
check installs none of them; the gate does, if root runs it."""

import os
import shutil
import subprocess
import sys
from contextlib import suppress
from dataclasses import dataclass
from functools import cache
from typing import Any, Collection, Sequence

from cdc6600.gate.parts import is_test
from cdc6600.shared.program import ROOT
from cdc6600.shared.waiting import Missing, run

LIST = ROOT / "tools/debian-packages"
# The browsers, with the programs that each needs. The checks of pages need one of them, and try the pages in each.
BROWSERS = {"Chromium": ("chromium", "chromedriver"), "Firefox": ("firefox-esr",)}
OF_BROWSERS = [program for programs in BROWSERS.values() for program in programs]
# A check that tries what it can without a program, and says what it left out.
IN_PARTS = ("built-files",)
# The programs of the list that are modules of Python. Those of the tests have to be in the same Python as pytest.
MODULES = {it: [it] for it in ("flake8", "gdb-stubs")} | {
    it: ["pytest", it] for it in ("pexpect", "pyte", "pytest", "xdist")
}
# Debian's packages put these modules into Debian's Python, which may be another than the one that runs this.
PYTHONS = (sys.executable, "/usr/bin/python3")
# What the list has for every check in the folder of tests.
EVERY_TEST = "tests/"
# How many seconds an installation waits for another one, and how many minutes it may take.
PATIENCE, MINUTES = 600, 10


@dataclass(frozen=True)
class Needed:
    """A line of the list: a program, its packages, and the checks that need it."""

    program: str
    packages: tuple[str, ...]
    checks: tuple[str, ...]

    def is_installed(self) -> bool:
        """Whether the program is installed."""
        if self.program in MODULES:
            return bool(python_with(*MODULES[self.program]))
        return bool(shutil.which(os.environ.get("CC", "cc") if self.program == "cc" else self.program))

    def is_for(self, check: str) -> bool:
        """Whether the check of this name needs the program."""
        return check in self.checks or (EVERY_TEST in self.checks and is_test(check))


def needed() -> list[Needed]:
    """The lines of the list."""
    lines = (line.split() for line in LIST.read_text(encoding="utf-8").splitlines() if not line.startswith("#"))
    return [Needed(program, *(tuple(names.split(",")) for names in others)) for program, *others in lines]


@cache
def python_with(*modules: str) -> str:
    """The Python that has these modules, or nothing."""
    looked = f"from importlib.util import find_spec; exit(not all(map(find_spec, {modules})))"
    pythons = (it for it in PYTHONS if os.access(it, os.X_OK))
    return next((it for it in pythons if not subprocess.run([it, "-c", looked], check=False).returncode), "")


def absent(programs: Collection[str] | None = None) -> list[Needed]:
    """The lines of these programs, or of all, that aren't installed."""
    return [it for it in needed() if (programs is None or it.program in programs) and not it.is_installed()]


def missing(check: str) -> list[Needed]:
    """The lines of the programs for which the check of this name can't run. Of the browsers one is enough."""
    if check in IN_PARTS:
        return []
    of_check = {it.program for it in needed() if it.is_for(check)}
    of_browsers = [absent(programs) for programs in BROWSERS.values() if of_check.issuperset(programs)]
    return absent(of_check.difference(OF_BROWSERS)) + (of_browsers[0] if of_browsers and all(of_browsers) else [])


def how_to_install(lines: Sequence[Needed]) -> str:
    """The command that installs programs."""
    return f"apt-get install {' '.join(package for it in lines for package in it.packages)}"


def names_of(lines: Sequence[Needed]) -> str:
    """The names of programs, in words."""
    return " and ".join(it.program for it in lines)


def require(check: str) -> None:
    """Ends this process, if the check of this name can't run, with a line that says what is missing."""
    lines = missing(check)
    if lines:
        sys.exit(f"{sys.argv[0]}: {names_of(lines)} missing: {how_to_install(lines)}")


def is_provided(lines: Sequence[Needed]) -> bool:
    """Installs programs, if this user may; whether that was done."""
    if os.geteuid() != 0 or not shutil.which("apt-get"):
        return False
    quiet: dict[str, Any] = {"stdin": subprocess.DEVNULL, "stdout": subprocess.DEVNULL, "stderr": subprocess.DEVNULL}
    quiet["env"] = {**os.environ, "DEBIAN_FRONTEND": "noninteractive"}
    _, *install = how_to_install(lines).split()
    with suppress(Missing):
        for words in (["update"], [*install, "-y", "--no-install-recommends"]):
            begun = ["apt-get", "-o", f"DPkg::Lock::Timeout={PATIENCE}", *words]
            if run(begun, MINUTES, **quiet).returncode:
                return False
        return True
    return False


def provide() -> str | None:
    """Installs what is missing, but no browser, and gives a line that says so; none if nothing is missing."""
    lines = [it for it in absent() if it.program not in OF_BROWSERS]
    if not lines:
        return None
    if is_provided(lines):
        python_with.cache_clear()
        return f"installed from Debian's packages: {names_of(lines)}"
    return f"not installed: {names_of(lines)}. The command for it: {how_to_install(lines)}"

"""Runs checks of this project.

    tools/check NAME..               these checks, one after another
    tools/check NAME ARGUMENT..      a check with arguments of its own
    tools/check NAME --help          prints what a check does
    tools/check --stage small        runs the checks of a stage of the gate side by side: `small` or `decks`
    tools/check --needs              has each program that a check calls do a small piece of work, and imports each
                                     check, but runs none
    tools/check --install            installs the packages of tools/debian-packages, except for browsers, for root

docs/work/checks.md describes each check, and says when to run it. A check that finds nothing prints nothing or a line
of counts. Otherwise it prints its faults, a few lines for each. A check with a file in tests/ is run by pytest, and
takes the arguments of pytest: `-k WORD` chooses cases by name, `--lf` runs those that failed last, and `-n 4` runs them
in four processes. CDC6600 may name the program to try; otherwise it is the one that
tools/build-program builds. CDC6600_LIBRARY may name the folder with the library that the tools ask. A check that calls
a program which isn't installed says so, and ends; tools/debian-packages lists these programs.

Exit status:
  0    the checks find nothing
  1    a check finds a fault, or can't be run
  2    the command line is refused

A stage leaves out a check if a program that it needs isn't installed, and names it. Its last line is `N passed, M
failed`.
"""

import os
import signal
import subprocess
import sys
import textwrap
from importlib import import_module
from typing import Sequence

from cdc6600.asking.library import KEPT, library_path
from cdc6600.checks.debian import python_with, require
from cdc6600.gate.parts import ASKING, DECKS, NAMES, SHARED_OUT, STAGES, called, command, file_of, is_test, module
from cdc6600.gate.stages import install, needs, stage
from cdc6600.generating.checks import docstring_of
from cdc6600.shared.ending import shown
from cdc6600.shared.program import ROOT, program_path

HELP = ("-h", "--help")


def help_text() -> str:
    listed = textwrap.fill(" ".join(NAMES), 118, initial_indent="  ", subsequent_indent="  ")
    return f"{__doc__.strip()}\n\nThe checks:\n{listed}"


def run_test(name: str, words: Sequence[str]) -> int:
    """Runs a check by pytest, in several processes if it takes long; its status. Those that failed are kept by the name
    of the check, for --lf. The program is built before if the check tries it and it has to be."""
    if name in DECKS:
        program_path()
    processes = ["-n", str(min(SHARED_OUT[name], len(os.sched_getaffinity(0))))] if name in SHARED_OUT else []
    options = ["-o", f"cache_dir=out/{name}", *processes, *words]
    pytest = [python_with("pytest"), "-B", "-m", "pytest", file_of(name), *options]
    ran = subprocess.run(pytest, cwd=ROOT, env={**os.environ, "PYTHONDONTWRITEBYTECODE": "1"}, check=False)
    return 1 if ran.returncode else 0


def run_one(name: str, words: Sequence[str]) -> int:
    """Runs a check; its status. A shell's background commands ignore INT, and commands below `nohup` ignore HUP. Checks
    send both signals to commands, which would inherit that."""
    signal.signal(signal.SIGINT, signal.default_int_handler)
    signal.signal(signal.SIGHUP, signal.SIG_DFL)
    sys.argv = [called(name), *words]
    require(name)
    if name in ASKING and library_path() == KEPT:
        # So none of the tools that the check calls has to look at the sources.
        os.environ["CDC6600_LIBRARY"] = str(KEPT.parent)
    return run_test(name, words) if is_test(name) else int(import_module(module(name)).main())


def run_all(names: Sequence[str]) -> int:
    """Runs checks one after another, each in a process of its own; the status of all."""
    return 1 if any([subprocess.run(command(name), cwd=ROOT, check=False).returncode for name in names]) else 0


def main() -> int:
    words = sys.argv[1:]
    if words and words[0] in HELP:
        return shown("tools/check", help_text())
    if words in (["--needs"], ["--install"]):
        return needs() if words == ["--needs"] else install()
    if words[:1] == ["--stage"] and len(words) == 2 and words[1] in STAGES:
        return stage(words[1])
    if not words or words[0] not in NAMES:
        told = f"{words[0]} is no check" if words else "no check is named"
        print(f"tools/check: {told}; tools/check --help lists them", file=sys.stderr)
        return 2
    if words[1:] in ([it] for it in HELP):
        # The check isn't imported for that, since some checks look for the program then.
        return shown("tools/check", docstring_of(ROOT / file_of(words[0])))
    return run_all(words) if len(words) > 1 and set(words).issubset(NAMES) else run_one(words[0], words[1:])

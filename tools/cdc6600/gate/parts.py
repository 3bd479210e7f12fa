"""The checks by their names, in the stages of the gate. `tools/check NAME` runs one. Pytest runs a check with a file in
the folder of tests; any other check is a module of `checks` or of `gate`.
"""

import subprocess
from typing import Iterable

from cdc6600.shared.program import ROOT

TESTS = "tests"
# They look at sources and pages alone, and take seconds.
SMALL = ("definitions", "generated", "sizes", "limits", "names", "layout", "readings", "edits", "style", "where")
# They try the tools that prove and that try wrong bodies, on small workspaces.
BODIES = "wrong-bodies"
BUILDING = ("spent-tokens", "build-program")
# They try the program and the tools.
DECKS = (
    "decks", "pages", "assembler", "image", "busy", "threads", "sequential", "large",
    "mutations", "failures", "allocations", "emulators", "trace", "random-sessions", "operate", "scheduling",
    "exploring", "cycles", "browser", "driving", "progress", "habits", "launcher", "archive", "many-jobs",
    "tool-failures", "embedding", "module", "built-files",
)
# Those of them whose tools ask the library, which is made before.
ASKING = (
    "decks", "pages", "assembler", "random-sessions", "operate", "scheduling", "exploring", "cycles",
    "browser", "driving", "habits", "archive", "tool-failures",
)
NAMES = (*SMALL, BODIES, *DECKS, *BUILDING)
STAGES = {"small": SMALL, "decks": (BODIES, *DECKS, *BUILDING)}
# The tests that run in several processes, and in how many at most.
SHARED_OUT = dict.fromkeys(
    ("decks", "pages", "assembler", "sequential", "mutations", "failures", "trace", "many-jobs", "scheduling",
     "exploring", "random-sessions", "operate", "cycles", "habits", "emulators", "browser", "driving"), 4
)


def tracked(*patterns: str) -> list[str]:
    """The files that are part of the repository and match a pattern, by their paths."""
    listed = subprocess.run(["git", "ls-files", *patterns], cwd=ROOT, check=True, capture_output=True, text=True)
    return [path for path in listed.stdout.splitlines() if (ROOT / path).is_file()]


def told(faults: Iterable[str]) -> int:
    """Prints the faults that a check found, each in a line; its status."""
    return 1 if [print(fault) for fault in faults] else 0


def command(name: str) -> list[str]:
    """The words that run a check."""
    return ["tools/check", name]


def called(name: str) -> str:
    """The name of a check as its page and its faults have it."""
    return " ".join(command(name))


def module(name: str) -> str:
    return f"cdc6600.{'gate' if name in SMALL else 'checks'}.{name.replace('-', '_')}"


def test_of(name: str) -> str:
    """The path that a check's file has if pytest runs it."""
    return f"{TESTS}/test_{name.replace('-', '_')}.py"


def is_test(name: str) -> bool:
    """Whether pytest runs a check."""
    return (ROOT / test_of(name)).is_file()


def file_of(name: str) -> str:
    """The path of a check's source."""
    return test_of(name) if is_test(name) else f"tools/{module(name).replace('.', '/')}.py"

"""Runs programs by turns and takes the best time of each, so that other work of the machine meets all of them."""

import subprocess
import time
from pathlib import Path
from typing import Container, Sequence

from cdc6600.shared.program import ROOT

# The statuses of a program whose machine is halted at the end, and of one whose machine still runs; and all those with
# which a program ends that prints a dump.
HALTED, RUNNING = 0, 5
ENDS = (HALTED, 3, 4, RUNNING)


class Failed(Exception):
    """A program that doesn't do what a benchmark needs. Its text is the line for the user."""


def plain_program(folder: str, room: Path) -> str:
    """Builds the plain program of a folder of bench/, by rustc, for the processor that the Rattle kit builds for; its
    path."""
    built = Path(room) / f"plain-{folder}"
    options = ["--edition", "2021", "-C", "opt-level=3", "-C", "target-cpu=x86-64-v2"]
    subprocess.run(["rustc", *options, "-o", built, ROOT / "bench" / folder / "plain.rs"], check=True)
    return str(built)


def timed(words: Sequence[str], text: Path, printed: str | Path, statuses: Container[int] = ENDS) -> float:
    """Runs a command with this file as its input and this one for what it prints; the seconds that it took.

    Raises Failed if it ends with another status."""
    with open(text, "rb") as given, open(printed, "wb") as output:
        begun = time.perf_counter()
        ended = subprocess.run(words, stdin=given, stdout=output, check=False).returncode
        took = time.perf_counter() - begun
    if ended not in statuses:
        raise Failed(f"{' '.join(map(str, words))[:200]} ended with status {ended}")
    return took

"""The most memory that `cdc6600 run` holds at a time, in KiB, on a deck of 131,072 `word` lines that halts at once, and
on the smallest deck before it.

    tools/bench memory

A memory of 131,072 words is 1,024 KiB. GNU time measures it, so that has to be there. CDC6600 may name the program;
otherwise it is the one that tools/build-program builds.
"""

import subprocess

from cdc6600.limits import LEAST_WORDS, MOST_WORDS
from cdc6600.shared.program import program_path

SIZES = (LEAST_WORDS, MOST_WORDS)
MEASURED = ("env", "time", "-f", "%M KiB")


def deck(size: int) -> str:
    """A deck of so many words. All of them stop but those of the package at 0, whose field is 400000 words long."""
    words = (f"word {'400000000000000000' if address == 2 else 0}" for address in range(size))
    return "".join(f"{line}\n" for line in (f"core {size}", *words, "start 0", "end"))


def main() -> int:
    program = program_path()
    for size in SIZES:
        ran = subprocess.run([*MEASURED, program, "run"], input=deck(size), check=True, text=True,
                             stdout=subprocess.DEVNULL, stderr=subprocess.PIPE)
        print(f"{size:6} words: {ran.stderr}", end="", flush=True)
    return 0

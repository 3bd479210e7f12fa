"""Times the reading of the longest plain deck: 131,072 words, one a line.

    tools/bench reading

`run` reads it, issues one stop and prints the dump; `list` reads it and prints each word. It prints both times in
seconds. CDC6600 may name the program; otherwise it is the one that tools/build-program builds.
"""

import os
import tempfile
from pathlib import Path

from cdc6600.limits import MOST_WORDS
from cdc6600.shared.program import program_path

from .racing import timed


def deck() -> str:
    """The deck: each word has another value."""
    words = (f"word {address * 8191:o}" for address in range(MOST_WORDS))
    return "".join(f"{line}\n" for line in (f"core {MOST_WORDS}", *words, "start 0", "end"))


def main() -> int:
    program = program_path()
    with tempfile.TemporaryDirectory() as room:
        text = Path(room) / "deck"
        text.write_text(deck(), encoding="ascii")
        for command in ("run", "list"):
            print(f"{command}:\nreal {timed([program, command], text, os.devnull):.2f}", flush=True)
    return 0

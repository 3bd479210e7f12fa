"""Under gdb: runs the program, and writes a line for each entry of a function of this repository: the number of the
thread and the function's name. At the entry of the function FAULT a line with the names of its callers follows.

The environment says what to run: PROGRAM, WORDS (its arguments), INPUT, ENTRIES (the file to write), CRATES and FAULT.
"""

import os
import re
import subprocess
from pathlib import Path
from typing import Iterator, TextIO

import gdb

PROGRAM = Path(os.environ["PROGRAM"])
SYMBOL = re.compile(r"([0-9a-f]+) [tT] ((?:[a-z_0-9]+)::.*)")


class Entry(gdb.Breakpoint):
    """A stop at the entry of a function, which notes it and goes on."""

    def __init__(self, address: int, name: str, entries: TextIO) -> None:
        super().__init__(f"*{address:#x}", internal=True)
        self.silent = True
        self.name = name
        self.entries = entries

    def stop(self) -> bool:
        """Notes the entry; no stop comes of it."""
        self.entries.write(f"{gdb.selected_thread().num} {self.name}\n")
        if self.name.endswith(os.environ["FAULT"]):
            self.entries.write(f"callers {' '.join(callers())}\n")
        return False


def callers() -> Iterator[str]:
    """The names of the functions that wait for the one that was just entered, the innermost first."""
    frame = gdb.newest_frame().older()
    while frame is not None:
        yield (frame.name() or "?").split("::<")[0]
        frame = frame.older()


def functions() -> Iterator[tuple[int, str]]:
    """The address and the name of each function of this repository in the program's file."""
    crates = set(os.environ["CRATES"].split())
    for line in subprocess.check_output(["nm", "-C", PROGRAM], text=True).splitlines():
        found = SYMBOL.fullmatch(line)
        if found and found[2].split("::")[0] in crates:
            yield int(found[1], 16), found[2].split("::<")[0]


def base() -> int:
    """Where the program's file lies in the memory of the process that was started."""
    maps = Path(f"/proc/{gdb.selected_inferior().pid}/maps").read_text(encoding="utf-8")
    return next(int(line.split("-")[0], 16) for line in maps.splitlines() if line.endswith(PROGRAM.name))


def main() -> None:
    """Starts the program, sets a stop at each function, and lets it run to its end."""
    for setting in ("pagination off", "confirm off", "breakpoint always-inserted on", "print thread-events off"):
        gdb.execute(f"set {setting}")
    gdb.execute(f"starti {os.environ['WORDS']} < {os.environ['INPUT']} > /dev/null 2> /dev/null")
    start = base()
    with open(os.environ["ENTRIES"], "w", encoding="utf-8") as entries:
        for address, name in functions():
            Entry(start + address, name, entries)
        gdb.execute("continue")


main()

"""Source programs in files, and the decks that they stand for.

The assembler reads a page when it is imported, which takes longer than many a run. So only a source program imports it.
"""

from pathlib import Path
from typing import TYPE_CHECKING

if TYPE_CHECKING:
    from .program import Program
    from .settings import Settings

ENDING = ".source"
MOST_LINES = 1_000_000


class Refused(Exception):
    """A source program with a fault: where its first fault is, and what is wrong there."""

    def __str__(self) -> str:
        return ": ".join(self.args)


def read_source(name: str | Path, content: bytes) -> tuple["Program", "Settings"]:
    """The program and the settings of a source program, by its name and its bytes.

    Raises Refused if it has too many lines."""
    from .program import Program
    from .settings import Settings

    if content.count(b"\n") > MOST_LINES:
        raise Refused(f"{name}:{MOST_LINES + 1}:1", f"a source program has at most {MOST_LINES} lines")
    program = Program(name, content.decode("utf-8", "backslashreplace"))
    return program, Settings(program)


def as_deck(file: str | Path, content: bytes) -> bytes:
    """What a file has, as a deck. If its name says that it is a source program, that is assembled.

    Raises Refused if the source program has a fault."""
    if not str(file).endswith(ENDING):
        return content
    from .output import deck_of

    program, settings = read_source(file, content)
    for fault in program.faults.placed:
        raise Refused(*fault)
    return "".join(f"{line}\n" for line in deck_of(program, settings)).encode()

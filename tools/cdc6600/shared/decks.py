"""The decks and sessions of the folder decks/, each with the files that belong to it, and the tables of its pages."""

import re
from functools import cached_property
from pathlib import Path

from .program import ROOT

FOLDER = ROOT / "decks"
# The deck of the first run stands where its path is shortest; what it prints stands with that of the others.
FIRST = FOLDER / "two-adds.deck"
RUN, SESSIONS, PAGES = FOLDER / "run", FOLDER / "sessions", FOLDER / "pages"


class Stored:
    """A deck or a session by its file. What belongs to it has its name with another ending, in its kind's folder."""

    folder: Path

    def __init__(self, file: Path) -> None:
        self.file, self.name = Path(file), Path(file).stem

    def __str__(self) -> str:
        return str(self.file.relative_to(ROOT))

    @cached_property
    def text(self) -> bytes:
        """What the file has."""
        return self.file.read_bytes()

    @property
    def log(self) -> str:
        """The log at the end of what is printed for it, or nothing."""
        return log_of(self.beside("dump") or self.beside("answers") or b"") or ""

    def beside(self, ending: str) -> bytes | None:
        """What the file with this ending has, or none where there is none."""
        file = self.folder / f"{self.name}.{ending}"
        return file.read_bytes() if file.is_file() else None


class Deck(Stored):
    """A deck, and what `run` and `list` do with it."""

    folder = RUN

    @property
    def dump(self) -> bytes | None:
        """What `run` prints, or none where the deck is refused."""
        return self.beside("dump")

    @property
    def listing(self) -> bytes | None:
        """What `list` prints, or none where no file has it."""
        return self.beside("list")

    @property
    def status(self) -> int:
        """The exit status of its run."""
        return int(self.beside("status") or 0)

    @property
    def arguments(self) -> list[str]:
        """Further arguments of its run, words without spaces in them."""
        return (self.beside("arguments") or b"").decode().split()

    @property
    def told(self) -> bytes:
        """What is written to standard error."""
        return self.beside("told") or b""

    @property
    def logs(self) -> list[str]:
        """The logs that its run may have, where they depend on how threads fall; else none."""
        return (self.beside("logs") or b"").decode().splitlines()


class Session(Stored):
    """A session, and what `events` does with it."""

    folder = SESSIONS

    @property
    def answers(self) -> bytes | None:
        """What `events` prints."""
        return self.beside("answers")

    @property
    def timeline(self) -> bytes | None:
        """What tools/timeline draws."""
        return self.beside("timeline")

    @property
    def schedule(self) -> list[str]:
        """The lines after the deck's end."""
        lines = self.text.decode().splitlines()
        return lines[lines.index("end") + 1 :]


def decks() -> list[Deck]:
    """All decks, by their names."""
    return [Deck(file) for file in sorted([FIRST, *RUN.glob("*.deck")], key=lambda file: file.stem)]


def sessions() -> list[Session]:
    """All sessions, by their names."""
    return [Session(file) for file in sorted(SESSIONS.glob("*.session"))]


def deck(name: str) -> Deck:
    return Deck(FIRST if name == FIRST.stem else RUN / f"{name}.deck")


def session(name: str) -> Session:
    return Session(SESSIONS / f"{name}.session")


def log_of(dump: bytes) -> str | None:
    """The log at the end of a dump, or none."""
    found = re.findall(rb"^LOG (.*)$", dump, re.MULTILINE)
    return found[-1].decode() if found else None


def cells_of(page: Path, head: str | None = None) -> list[list[str]]:
    """The cells of each line of a page that is a row of a table, a table's head too; where a head is given, of the
    lines under it alone."""
    rows = [line for line in lines_of(page, head) if line.startswith("| ")]
    return [[cell.strip(" ") for cell in re.split(r" \|(?= )", line.strip().strip("|"))] for line in rows]


def lines_of(page: Path, head: str | None = None) -> list[str]:
    """The lines of a page; where a head is given, those from it to the next head."""
    lines = Path(page).read_text(encoding="utf-8").splitlines()
    if head is None:
        return lines
    first = lines.index(f"## {head}") + 1
    heads = [number for number, line in enumerate(lines) if number >= first and line.startswith("## ")]
    return lines[first : min(heads, default=len(lines))]


def shown_by_sessions() -> dict[str, str]:
    """What each session shows, by its name, as decks/README.md says."""
    rows = [cells for cells in cells_of(FOLDER / "README.md", "Sessions") if cells[0].startswith("`")]
    return {name.strip("`"): shown for name, shown in rows}


def drained_by_sessions() -> dict[str, int]:
    """The number of events that the last line of a session makes, a drain, by the session's name. decks/README.md has
    the numbers for some sessions."""
    rows = [cells for cells in cells_of(FOLDER / "README.md", "Drains") if cells[0].startswith("`")]
    return {name.strip("`"): int(events) for name, events in rows}


def rows_of(page: Path) -> list[list[str]]:
    """The rows of a page whose first cell is a text in backquotes; no backquote is in what is given."""
    return [[cell.replace("`", "") for cell in cells] for cells in cells_of(page) if cells[0].startswith("`")]

"""Reads crates.txt, which lists the crates."""

from pathlib import Path
from typing import Iterable

FILE = "crates.txt"


class Unreadable(Exception):
    """What can't be read or judged: an edit, an output, a kit of another layout. Its text is the line for the user."""


class Table:
    """The crates of crates.txt, lowest first: the line of each, and which crates of the repository stand below it.

    Comments and empty lines belong to no crate."""

    def __init__(self, root: Path) -> None:
        self.root, self.lines, self.uses = root, dict[str, str](), dict[str, list[str]]()
        for line in (self.root / FILE).read_text(encoding="utf-8").splitlines():
            if line.strip() and not line.lstrip().startswith("#"):
                head, _, names = line.partition(":")
                name = head.split()[0]
                self.lines[name], self.uses[name] = line, names.split()

    def below(self, name: str) -> list[str]:
        """The crates of the repository that the crate stands on, each after those that it uses itself."""
        found: list[str] = []
        for used in self.uses[name]:
            if used in self.lines:
                found += [it for it in [*self.below(used), used] if it not in found]
        return found

    def folder(self, name: str) -> Path:
        return self.root / "crates" / name

    def write(self, folder: Path, names: Iterable[str], more: Iterable[str] = ()) -> None:
        """Writes the table of a workspace that has these crates, with further lines."""
        lines = [*(self.lines[name] for name in names), *more]
        (Path(folder) / FILE).write_text("".join(f"{line}\n" for line in lines), encoding="utf-8")

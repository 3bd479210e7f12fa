"""Files that are installed under a folder, with a list of them by which they are removed again."""

import re
from contextlib import suppress
from dataclasses import dataclass
from pathlib import Path, PurePath
from typing import Iterable, Sequence

HEAD = "What tools/install has installed, from the folder PREFIX on; a name that ends with / is a folder it has made."
# A name of the list: it leads nowhere but below the folder.
NAME = re.compile(r"(?!.*(^|/)\.\.(/|$))[^/].*")


class Fault(Exception):
    """What can't be installed or removed. Its text is for the user."""


@dataclass(frozen=True)
class Piece:
    """A file to install: its name from the folder on, what it has, and who may do what with it."""

    name: str
    content: bytes
    mode: int = 0o644


class Installation:
    """What is installed under a folder. The list of it stands there too, by a name of its own."""

    def __init__(self, folder: str | Path, list_name: str) -> None:
        self.folder, self.list_name = Path(folder), list_name

    def listed(self) -> list[str]:
        """The names on the list; none where there is no list."""
        file = self.folder / self.list_name
        try:
            lines = file.read_text(encoding="utf-8", errors="replace").splitlines()
        except FileNotFoundError:
            return []
        if lines[:1] != [HEAD] or not all(map(NAME.fullmatch, lines[1:])):
            raise Fault(f"{file}: it isn't the list of what was installed")
        return lines[1:]

    def install(self, pieces: Sequence[Piece]) -> None:
        """Writes the pieces, and removes what was on the list and is none of them. The list is written first too, so
        that what was begun can be removed."""
        names, earlier = [piece.name for piece in pieces], self.listed()
        folders = self.made_folders([*names, self.list_name], earlier)
        gone = [name for name in files_of(earlier) if name not in names]
        self.write_list([*names, *gone, *folders])
        for piece in pieces:
            self.write(piece)
        self.remove_files(gone)
        self.write_list([*names, *folders])

    def remove(self) -> None:
        """Removes what is on the list, the list, and the folders that were made and are empty now."""
        names = self.listed()
        if not names:
            raise Fault(f"{self.folder / self.list_name}: no such list, so nothing is installed there")
        self.remove_files([*files_of(names), self.list_name])
        for name in sorted(folders_of(names), key=len, reverse=True):
            with suppress(OSError):
                (self.folder / name).rmdir()

    def made_folders(self, names: Iterable[str], earlier: Iterable[str]) -> list[str]:
        """The folders above these names that aren't there, and those of the list."""
        missing = {name for name in folders_above(names) if not (self.folder / name).is_dir()}
        return sorted({*missing, *folders_of(earlier)})

    def write_list(self, names: Iterable[str]) -> None:
        """Writes the list anew."""
        self.write(list_of(self.list_name, names))

    def write(self, piece: Piece) -> None:
        """Writes a piece beside its place, and renames it then."""
        file = self.folder / piece.name
        file.parent.mkdir(parents=True, exist_ok=True)
        part = file.with_name(f".{file.name}.new")
        try:
            part.write_bytes(piece.content)
            part.chmod(piece.mode)
            part.replace(file)
        finally:
            part.unlink(missing_ok=True)

    def remove_files(self, names: Iterable[str]) -> None:
        """Removes files, if they are there."""
        for name in names:
            (self.folder / name).unlink(missing_ok=True)


def list_of(name: str, names: Iterable[str]) -> Piece:
    """The list of these names, as a file of its own name."""
    return Piece(name, "".join(f"{line}\n" for line in [HEAD, *names]).encode())


def folders_above(names: Iterable[str]) -> set[str]:
    """The folders above these names."""
    return {f"{folder}/" for name in names for folder in PurePath(name).parents if folder.name}


def files_of(names: Iterable[str]) -> list[str]:
    """The names that are files."""
    return [name for name in names if not name.endswith("/")]


def folders_of(names: Iterable[str]) -> list[str]:
    """The names that are folders."""
    return [name for name in names if name.endswith("/")]

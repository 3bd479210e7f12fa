"""Executables that have every wrong body of the crates, and run the one that a number chooses.

They are built from the sources without their proof. Each function with wrong bodies compares its crate's number with
the numbers of these bodies, and runs the chosen one, or the right one. The number is a constant of eight bytes that
nothing else in an executable has, so one build is enough: each body gets a copy of it with its number there.
"""

import os
import re
import shutil
import threading
from dataclasses import dataclass, field
from pathlib import Path
from typing import Iterable, Iterator, Sequence

from cdc6600.building import unproved
from cdc6600.crates.kit import checker
from cdc6600.crates.source import Item, Sources
from cdc6600.crates.table import Table
from cdc6600.wrong_bodies.edits import Body, Region, read_bodies

# The constant of the first crate; each further one has the next constant. The number of a body is below it.
FIRST = 0x5EED_C0DE_7A11_0001
CHOSEN = "chosen_body"
ROOTS = ("src/lib.rt", "src/main.rt")
# While an executable is written no process is started, since that one would have it open, and nobody could run it.
STARTING = threading.Lock()


@dataclass
class Chosen:
    """A crate with all its wrong bodies: the texts of its sources, and the number of each body that can be chosen, by
    its name."""

    texts: dict[str, str] = field(default_factory=dict)
    numbers: dict[str, int] = field(default_factory=dict)


def places_of(body: Body, source: Sources) -> list[tuple[Item, Region]]:
    """The functions in which a body is wrong, each with what is wrong there; none if it changes anything else."""
    found: list[tuple[Item, Region]] = []
    for region in body.regions:
        path, start, end, lines = region
        inside = [it for it in source.functions() if it.path == path and it.body_start < start and end <= it.last]
        if not inside or any(re.search(r"\bfn \w", line) for line in lines):
            return []
        found.append((inside[-1], region))
    return found


def with_bodies(source: Sources, bodies: Iterable[Body]) -> Chosen:
    """The texts of a crate with all these bodies in their functions."""
    chosen, places = Chosen(), dict[Item, list[tuple[int, Region]]]()
    for body in bodies:
        found = places_of(body, source)
        if found:
            chosen.numbers[body.name] = len(chosen.numbers) + 1
        for item, region in found:
            places.setdefault(item, []).append((chosen.numbers[body.name], region))
    for item, wrong in sorted(places.items(), key=lambda it: -it[0].first):
        lines = chosen.texts.get(item.path, source.texts[item.path]).split("\n")
        lines[item.body_start + 1 : item.last] = arms_of(item, wrong, source.texts[item.path].split("\n"))
        chosen.texts[item.path] = "\n".join(lines)
    return chosen


def arms_of(item: Item, wrong: Iterable[tuple[int, Region]], lines: Sequence[str]) -> Iterator[str]:
    """The lines of a function's body with the wrong ones, each by its number, before the right one."""
    first, last = item.body_start + 1, item.last
    for number, (_, start, end, new) in wrong:
        yield f"if crate::{CHOSEN}() == {number} {{"
        yield from [*lines[first:start], *new, *lines[end:last]]
        yield "} else"
    yield from ["{", *lines[first:last], "}"]


def write_texts(folder: Path, texts: dict[str, str], constant: int) -> None:
    """Writes the sources of a crate with its constant."""
    root = next(it for it in ROOTS if it in texts)
    number = f"\n/// The number of the wrong body that runs.\nfn {CHOSEN}() -> u64 {{\n    {constant}\n}}\n"
    for path, text in (texts | {root: texts[root] + number}).items():
        (folder / path).write_text(text, encoding="utf-8")


class Choice:
    """A copy of all crates that has their wrong bodies, in a folder of its own. `constants` has the constant of each
    crate with wrong bodies, and `numbers` the number of each body by its crate and its name."""

    def __init__(self, table: Table, room: Path) -> None:
        self.room, self.constants, self.numbers = room, dict[str, int](), dict[tuple[str, str], int]()
        for name in table.lines:
            folder = table.folder(name)
            target = room / folder.relative_to(table.root)
            shutil.copytree(folder, target, ignore=shutil.ignore_patterns("out"))
            source = Sources.read(folder)
            chosen = with_bodies(source, read_bodies(folder, source)[0])
            if chosen.numbers:
                self.constants[name] = FIRST + len(self.constants)
                write_texts(target, source.texts | chosen.texts, self.constants[name])
                self.numbers |= {(name, body): number for body, number in chosen.numbers.items()}
        table.write(room, list(table.lines))
        self.table = Table(room)

    def built(self, crate: str, is_test: bool = False) -> "Executable":
        """The executable of a program, or that of a crate's tests.

        Raises Unproved if it can't be built."""
        # The program has tests of its own, so a crate may be built twice.
        room = self.room / "built" / (f"tests-of-{crate}" if is_test else crate)
        room.mkdir(parents=True)
        data = unproved.build(self.table, checker().parent.parent, crate, room, is_test).read_bytes()
        return Executable(self, room, data)


def bytes_of(number: int) -> bytes:
    return number.to_bytes(8, "little")


class Executable:
    """An executable in which a body can be chosen."""

    def __init__(self, choice: Choice, room: Path, data: bytes) -> None:
        self.choice, self.room, self.data = choice, room, data

    def right(self) -> Path:
        """A file of the executable with the right bodies."""
        return self.put("right", self.data)

    def has(self, crate: str, body: str) -> bool:
        """Whether a body can be chosen in it."""
        return (crate, body) in self.choice.numbers and bytes_of(self.choice.constants[crate]) in self.data

    def wrong(self, crate: str, body: str) -> Path:
        """A file of the executable in which this body is chosen."""
        constant, number = self.choice.constants[crate], self.choice.numbers[crate, body]
        return self.put(f"{crate}-{body}", self.data.replace(bytes_of(constant), bytes_of(number)))

    def put(self, name: str, data: bytes) -> Path:
        file = self.room / name
        with STARTING:
            file.write_bytes(data)
        os.chmod(file, 0o755)
        return file

"""Reads the edits of a crate, which make bodies of its functions wrong."""

from dataclasses import dataclass, field
from pathlib import Path
from typing import NamedTuple

from cdc6600.crates.crate import EDITS
from cdc6600.crates.source import Item, Sources, items_of, names_in
from cdc6600.crates.table import Unreadable

UNSURE, LET_THROUGH = "unsure", "let through"
# How the lines begin that have a reason.
NOTES = (f"{UNSURE}: ", f"{LET_THROUGH}: ")


class Region(NamedTuple):
    """What an edit changes in a file: the lines from one to another of the right text, and the new ones."""

    path: str
    start: int
    end: int
    lines: list[str]


@dataclass
class Body:
    """A wrong body: the edit's name, its text, what it changes, and whether it has to be tried alone."""

    name: str
    text: str
    regions: list[Region] = field(default_factory=list)
    # The functions that it changes, or whose body or contract names a constant that it changes.
    touched: list[Item] = field(default_factory=list)
    is_alone: bool = False
    notes: dict[str, str] = field(default_factory=dict)  # its reasons, by the words of NOTES


def notes_of(text: str) -> dict[str, str]:
    """The reasons that an edit gives, by their words: why nobody can tell whether the contract refuses its body, or why
    the contract lets it through."""
    pairs = (line.split(": ", 1) for line in text.split("\n") if line.startswith(NOTES))
    return {word: reason.strip() for word, reason in pairs}


def pairs_of(text: str, label: str) -> list[tuple[str, str, str]]:
    """The pairs of an edit: the file, the old text and the new one."""
    path, pairs = "", list[tuple[str, str, str]]()
    old: str | None = None
    for line in text.split("\n"):
        if line.startswith(NOTES):
            continue
        if line.startswith("file: "):
            path = line.removeprefix("file: ").strip()
        elif line.startswith("old: "):
            old = line.removeprefix("old: ")
        elif line.startswith("new:") and path and old:
            pairs.append((path, old, line.removeprefix("new:").removeprefix(" ")))
            old = None
        elif line.strip():
            raise Unreadable(f"{label}: this line is no part of an edit: {line[:80]}")
    if not pairs or old is not None:
        raise Unreadable(f"{label}: it has no pairs of 'old:' and 'new:' below a line 'file:'")
    return pairs


def read_body(file: Path, source: Sources) -> Body:
    """Reads an edit and applies it by itself, so that each of its texts is looked for as the one before left them."""
    label = f"{file.parent.parent.name}/{file.stem}"
    body, texts = Body(file.stem, file.read_text(encoding="utf-8")), dict[str, str]()
    body.notes = notes_of(body.text)
    for path, old, new in pairs_of(body.text, label):
        if path not in source.texts:
            raise Unreadable(f"{label}: {path} is no file of src")
        text = texts.get(path, source.texts[path])
        if text.count(old) != 1:
            raise Unreadable(f"{label}: a text stands {text.count(old)} times in {path}, and not once: {old[:80]}")
        if not touch(body, path, text, text.find(old), new, source):
            raise Unreadable(f"{label}: it changes a contract, which shows nothing: change a body")
        texts[path] = text.replace(old, new)
    if not body.touched:
        raise Unreadable(f"{label}: it changes no function, and no constant that one reads")
    body.regions = [region_of(path, source.texts[path], text) for path, text in texts.items()]
    return body


def touch(body: Body, path: str, text: str, at: int, new: str, source: Sources) -> bool:
    """Notes which functions a pair changes, and whether it concerns others. Says whether it leaves the contracts
    alone."""
    first = text[:at].count("\n")
    inside = next((item for item in items_of(path, text) if item.first <= first <= item.last), None)
    function = inside if inside and inside.kind == "function" else None
    # A contract, a constant or a struct concerns others than one function, and so does a function that is added.
    body.is_alone |= not function or "fn " in new or first < function.body_start
    if function:
        same = [item.first for item in items_of(path, text) if item.key() == function.key()]
        found = [item for item in source.functions() if item.path == path and item.key() == function.key()]
        found = found[same.index(function.first) :][:1] if len(found) == len(same) else found
    else:
        found = [item for item in source.functions() if inside and named_by(item) & made_of(inside.name, source)]
    body.touched += [item for item in found if item not in body.touched]
    return not function or first >= function.body_start or "fn " in new


def made_of(name: str, source: Sources) -> set[str]:
    """A constant, and the constants that are made of it."""
    constants, found = [item for item in source.items if item.kind == "constant"], {name}
    while more := {item.name for item in constants if item.names() & found} - found:
        found |= more
    return found


def named_by(item: Item) -> set[str]:
    """The names in a function's body and in its contract, which may state the value of a constant."""
    return item.names() | names_in(item.declaration)


def region_of(path: str, right: str, wrong: str) -> Region:
    """The part of a text that an edit changes, from its first change to its last, in whole lines."""
    before, after = right.split("\n"), wrong.split("\n")
    start = next((n for n, (a, b) in enumerate(zip(before, after)) if a != b), min(len(before), len(after)))
    rest = min(len(before), len(after)) - start
    same = next((n for n in range(rest) if before[-1 - n] != after[-1 - n]), rest)
    return Region(path, start, len(before) - same, after[start : len(after) - same])


def applied(body: Body, source: Sources) -> dict[str, str]:
    """The texts that have this body. Each of its regions is in the places of the right text, and no two overlap."""
    texts: dict[str, list[str]] = {}
    for path, start, end, lines in sorted(body.regions, key=lambda it: it[:3], reverse=True):
        whole = texts.setdefault(path, source.texts[path].split("\n"))
        whole[start:end] = lines
    return {path: "\n".join(lines) for path, lines in texts.items()}


def read_bodies(folder: Path, source: Sources) -> tuple[list[Body], list[str]]:
    """Every wrong body of a crate, from all of its folders, and a line for each edit that can't be read."""
    bodies, faults, names = list[Body](), list[str](), set[str]()
    for file in (file for part in EDITS for file in sorted(Path(folder, part).glob("*.edit"))):
        if file.stem in names:
            faults.append(f"{Path(folder).name}/{file.stem}: two edits have this name")
        names.add(file.stem)
        try:
            bodies.append(read_body(file, source))
        except Unreadable as fault:
            faults.append(str(fault))
    return bodies, faults

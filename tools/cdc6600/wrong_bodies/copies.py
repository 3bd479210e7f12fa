"""Puts wrong bodies beside the right ones, so that one check judges many.

A wrong body gets a copy of its function under a name of its own, with the same contract and with copies of the proof
files. The copy calls what the function calls, the right bodies of it, and nothing calls the copy. So what the check
says of a copy is said of that body alone, and any number of them can stand in one text.

Some bodies can't stand so: a method of a trait's `impl`, which has no room for a second one; a function that calls
itself, since its copy would call the right body; one whose proof has more files than answers and invariants; and an
edit of more than one function, or of a constant. Each of those is tried in the place of the right one.
"""

import re
from dataclasses import dataclass, replace
from pathlib import Path
from typing import Collection, Iterator, Sequence

from cdc6600.crates.source import Item, Sources, module_of

from .edits import Body
from .opening import attributes_of, opened
from .verdicts import is_of
from .written import without

FILES = {"Answers.antt", "Invariants.antt"}
# The most copies for one check. A check of more keeps one processor busy at the end, while the others are idle.
TOGETHER = 20


@dataclass(frozen=True)
class Copy:
    """A wrong body beside the right one: its edit's name, the copy as an item, its lines, and its proof files'
    texts."""

    body: Body
    item: Item
    suffix: str  # the end of the copy's name
    lines: tuple[str, ...]
    proofs: tuple[tuple[str, str, str], ...]  # for each file its path in the crate, that of its original, and its text

    @property
    def touched(self) -> list[Item]:
        return [self.item]


def proof_folder(item: Item, source: Sources, folder: Path, part: tuple[str, ...] = ()) -> Path | None:
    """The folder of a function's proof, whether there is one or not, and None if that isn't clear. With the part `fn`,
    that of the proofs of its closures."""
    if not item.owner:
        return Path(folder, "proofs", *module_of(item.path), *part, item.name)
    modules = source.types.get(item.owner, [])
    if len(modules) != 1:
        return None
    place = Path(folder, "proofs", *modules[0], *part)
    named = [it for it in place.glob(f"{item.owner}*") if re.fullmatch(rf"{item.owner}(\+\w+)*", it.name)]
    found = [it / item.name for it in named if (it / item.name).is_dir()]
    if item.within.is_instance or len(found) > 1:
        return None
    return found[0] if found else place / item.owner / item.name


def proof_folders(item: Item, source: Sources, folder: Path) -> list[Path]:
    """The folders of a function's proof and of those of its closures; none if that isn't clear, if the function is a
    trait's or of a type at some arguments alone, or if it calls itself."""
    own, closures = proof_folder(item, source, folder), proof_folder(item, source, folder, ("fn",))
    is_special = item.trait or item.within.is_trait or item.within.is_instance
    if is_special or not own or not closures or own.with_name(f"+{item.name}").exists():
        return []
    return [own, closures]


def written_folders(item: Item, folder: Path) -> Iterator[Path]:
    """The folders that may have written proofs of a function, also of one that can't have a copy, and of its
    closures."""
    for file in sorted(Path(folder, "proofs").rglob("*")):
        steps = file.relative_to(folder / "proofs").parts
        if file.is_dir() and is_of("::".join([folder.name, *steps]), item, folder.name):
            yield file


def can_stand_beside(body: Body, source: Sources, folder: Path) -> bool:
    """Whether a body can stand beside the right one."""
    if body.is_alone or len(body.touched) != 1 or len(body.regions) != 1:
        return False
    item, (path, start, end, _) = body.touched[0], body.regions[0]
    folders = proof_folders(item, source, folder)
    if not folders:
        return False
    own, closures = folders
    files = {file.name for file in [*own.glob("*"), *closures.rglob("*")] if file.parent == own or not file.is_dir()}
    return path == item.path and item.first <= start and end <= item.last + 1 and files <= FILES


def copy_of(body: Body, suffix: str, source: Sources, folder: Path, paths: Sequence[str] = (),
            left_out: Collection[tuple[str, str]] = ()) -> Copy:
    """The copy of a body, whose name ends in this suffix, with the definitions of these paths opened, and without these
    answers of the written proof, each named by its file and its goal."""
    item, (path, start, end, wrong) = body.touched[0], body.regions[0]
    lines, name = source.texts[path].split("\n"), f"{item.name}_{suffix}"
    whole = [*lines[item.first : start], *wrong, *lines[end : item.last + 1]]
    whole[0] = re.sub(rf"\bfn {item.name}\b", f"fn {name}", whole[0], count=1)
    attributes = [line for line in attributes_of(item, lines) if not line.lstrip().startswith("///")]
    attributes = opened(attributes, paths, item) if paths else attributes
    proofs = copied_proofs(item, suffix, proof_folders(item, source, folder), folder, left_out)
    return Copy(body, replace(item, name=name), suffix, ("", *attributes, *whole), tuple(proofs))


def copied_proofs(item: Item, suffix: str, folders: Sequence[Path], folder: Path,
                  left_out: Collection[tuple[str, str]]) -> Iterator[tuple[str, str, str]]:
    """The copies of a function's proof files. One file may cite what another has, so each has every new name."""
    steps = [".".join(at.relative_to(folder / "proofs").parts) for at in folders]
    for at in folders:
        for file in sorted(file for file in at.rglob("*") if not file.is_dir()):
            text, path = file.read_text(encoding="utf-8"), str(file.relative_to(folder))
            text = without(text, {name for its, name in left_out if its == path})
            for step in steps:
                own = f"Rattle.{folder.name}.proofs.{step}"
                text = text.replace(f"{own}.", f"{own}_{suffix}.")
            copied_at = at.with_name(f"{item.name}_{suffix}") / file.relative_to(at)
            yield str(copied_at.relative_to(folder)), path, text


def copied(bodies: Sequence[Body], source: Sources, folder: Path) -> list[list[Copy]]:
    """The copies, in lists for one check each, that are about as long."""
    copies = [copy_of(body, f"wrong_{number}", source, folder) for number, body in enumerate(bodies)]
    checks = -(-len(copies) // TOGETHER)
    return [copies[at::checks] for at in range(checks)]


def beside(copies: Sequence[Copy], source: Sources) -> dict[str, str]:
    """The texts of the sources and of the proof files that have these copies."""
    texts = {path: text for copy in copies for path, _, text in copy.proofs}
    for copy in sorted(copies, key=lambda it: it.item.last, reverse=True):
        lines = texts.get(copy.item.path, source.texts[copy.item.path]).split("\n")
        lines[copy.item.last + 1 : copy.item.last + 1] = copy.lines
        texts[copy.item.path] = "\n".join(lines)
    return texts

"""Assumes the contracts of the functions that a check of wrong bodies doesn't change.

The prover takes of a call what the contract of the called function says, so it doesn't matter for a wrong body how that
contract is proved, nor what the called function does. `rt ci` proves it, and to prove it again takes longer than to
refuse the wrong bodies. So in a check of wrong bodies each other function has a body that does nothing, and a proof
that is a hole: `rt check --allow-holes` takes what the hole is to show as shown, and goes on to the goals of whoever
calls the function.

Some functions are still proved: a method of a trait's `impl`, one of a type at some arguments alone, and one that calls
itself, since the folder of its proof or the form of it is another.
"""

import re
from pathlib import Path
from typing import Container, Iterable, Mapping

from cdc6600.crates.source import Item, Sources, items_of

from .copies import proof_folders

PROOF = "use Rattle.{}.proofs.{}.Statement.{{statement}}\n\npub {}_spec : {{M : Type 1}} → statement M\n{}_spec = ?\n"
# What is said of a function that is proved but for holes.
HOLES = re.compile(r"^(fn (\S+)): (?:no holes|depends on a hole in .*)$", re.MULTILINE)
# What is said of a function that calls one with a hole.
CALLED = re.compile(r";? it calls (`[^;\n]*), which (?:is|are) not proved")


def assumed(source: Sources, folder: Path, wrong: Iterable[Item], texts: Mapping[str, str]) -> dict[str, str | None]:
    """The texts of a crate in which the contracts of all functions but these are assumed, where it has these texts in
    place of its own. Where a path has no text, its file is left out."""
    kept, proofs = {item.key() for item in wrong}, dict[str, str | None]()
    given: dict[str, set[tuple[str, str, str]]] = {}
    for item in source.functions():
        folders = [] if item.key() in kept else proof_folders(item, source, folder)
        if not folders:
            continue
        own, closures = folders
        for file in sorted([*own.glob("*.antt"), *closures.rglob("*.antt")]):
            proofs[str(file.relative_to(folder))] = None
        steps = ".".join(own.relative_to(folder / "proofs").parts)
        proof = PROOF.format(folder.name, steps, item.name, item.name)
        proofs[str((own / "Proof.antt").relative_to(folder))] = proof
        given.setdefault(item.path, set()).add(item.key())
    changed = {path: without_bodies(path, texts.get(path, source.texts[path]), ["unreachable!()"], keys)
               for path, keys in given.items()}
    return {**proofs, **texts, **changed}


def without_bodies(path: str, text: str, body: Iterable[str],
                   keys: Container[tuple[str, str, str]] | None = None) -> str:
    """The text of a source in which all functions, or those of these keys, have the lines of this body."""
    lines = text.split("\n")
    for item in reversed(items_of(path, text)):
        if item.kind == "function" and item.size and (keys is None or item.key() in keys):
            lines[item.body_start + 1 : item.last] = [f"{item.indentation}    {line}" for line in body]
    return "\n".join(lines)


def as_proved(said: str) -> str:
    """What a check says where contracts are assumed, in the words of one in which they are proved."""
    assumed_ones = {found[2] for found in HOLES.finditer(said)}

    def calls(found: re.Match[str]) -> str:
        named = set(re.findall(r"`([^`]+)`", found[1]))
        return "" if named <= assumed_ones else found[0]

    return CALLED.sub(calls, HOLES.sub(r"\1: proved", said))

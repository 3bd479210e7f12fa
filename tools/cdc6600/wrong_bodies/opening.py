"""Finds the closed definitions that the goals of a function may name, so that a second check can open them.

The tactics don't look into an `unfoldable` definition, unless the function's attribute opens it by `unfolding`. The
right body is often proved with closed definitions, since the functions that it calls promise the same names. A body in
other words, which calls other functions, isn't.

The definitions that are opened are named by the function's contract, by the contracts of the functions that the body
calls, by the invariant of its type, or by a definition that is opened. The nearest LIMIT of them are taken, since a
search among very many takes long and gives up. They belong to the crate or to a crate that its line in crates.txt
lists. Calls are found by name alone, so some definitions are opened that no goal names. That costs time, and nothing
else.
"""

import re
from functools import lru_cache
from pathlib import Path
from typing import Container, Iterable, Iterator

from cdc6600.crates.definitions import Module, imported, modules
from cdc6600.crates.source import DECLARES, Item, Sources, first_above
from cdc6600.crates.table import Table

LIMIT = 40
WORD = re.compile(r"[^\W\d][\w'-]*")
ATTRIBUTE = re.compile(r"\s*#\[tactic\(auto\b(.*)\)\]$")
LIST = re.compile(r"(using|unfolding)\(([^)]*)\)")
# What a type's declaration says of its values, and what its `Model` does.
TYPE = re.compile(
    rf"^(?:{DECLARES.pattern}|impl(?:<[^{{]*>)? Model for (\w+))[^\n]*{{\n(.*?)^}}", re.MULTILINE | re.DOTALL
)
SAID = re.compile(r"ghost (?!use\b).*?\}[,;]$", re.MULTILINE | re.DOTALL)
# The attribute's paths are made of the names of Rust.
RUST = re.compile(r"\w+")


@lru_cache(None)
def source_of(folder: Path) -> Sources:
    return Sources.read(folder)


def head(item: Item) -> str:
    return "\n".join(item.text.split("\n")[: item.body_start - item.first])


def invariants(item: Item, source: Sources) -> Iterator[tuple[str, str]]:
    """What the declaration of a method's type and its `Model` say of its values, by the file that says it."""
    for path, text in source.texts.items():
        for found in TYPE.finditer(text):
            if item.owner and item.owner in (found[1], found[2]):
                yield path, " ".join(SAID.findall(found[3]))


class Opening:
    """Which closed definitions are opened for the functions of one crate."""

    def __init__(self, table: Table, crate: str) -> None:
        names = [crate, *(name for name in table.uses[crate] if name in table.lines)]
        self.folder, self.folders = table.folder(crate), [table.folder(name) for name in names]

    def named(self, item: Item, source: Sources, called: Container[str]) -> list[str]:
        """The definitions that the goals of a body may name at first: those of its contract come first."""
        texts = [(source, item.path, head(item)), *((source, *found) for found in invariants(item, source))]
        for other in map(source_of, self.folders):
            texts += [(other, it.path, head(it)) for it in other.functions() if it.name in called]
        found = list[str]()
        for its, path, text in texts:
            known, _ = imported(its.texts[path])
            found += [known[word] for word in WORD.findall(text) if word in known]
        return list(dict.fromkeys(found))

    def of(self, item: Item, source: Sources, called: Container[str]) -> tuple[str, ...]:
        """The paths, as the attribute names them, of what is opened for a body that calls these names."""
        known: dict[str, tuple[Module, str]] = {}
        for module in (it for folder in self.folders for it in modules(folder).values()):
            known |= {f"{module.name}:{name}": (module, name) for name in module.definitions}
        found = [name for name in self.named(item, source, called) if name in known]
        for module, name in map(known.__getitem__, found):  # it grows on the way
            found += sorted(set(module.named_in(name)) & known.keys() - set(found))
        closed = [it for it in found if known[it][0].is_closed(known[it][1]) and RUST.fullmatch(known[it][1])]
        return tuple(map(self.path, closed[:LIMIT]))

    def path(self, name: str) -> str:
        crate, *steps = re.split("[/:]", name)
        return "::".join(["crate" if crate == self.folder.name else crate, "specs", *steps])


def attributes_of(item: Item, lines: list[str]) -> list[str]:
    """The lines above a function that belong to it: its attributes and its comments."""
    return lines[first_above(lines, item.first) : item.first]


def own_lists(lines: Iterable[str]) -> dict[str, list[str]]:
    """The lemmas and the definitions that a function's attribute names by itself."""
    lists: dict[str, list[str]] = {"using": [], "unfolding": []}
    for line in lines:
        for word, names in LIST.findall(line) if ATTRIBUTE.match(line) else []:
            lists[word] += names.split(", ")
    return lists


def opened(above: list[str], paths: Iterable[str], item: Item) -> list[str]:
    """The lines above a function, with these definitions opened beside those that it opens itself."""
    lists = own_lists(above)
    lists["unfolding"] += [path for path in paths if path not in lists["unfolding"]]
    words = ", ".join(["auto", *(f"{word}({', '.join(names)})" for word, names in lists.items() if names)])
    return [line for line in above if not ATTRIBUTE.match(line)] + [f"{item.indentation}#[tactic({words})]"]

"""The crates as the checks see them: their sources, what a crate hands out, and the edits that make wrong bodies.

Paths are from the repository's folder on.
"""

import re
from functools import cached_property
from pathlib import Path

from cdc6600.shared.program import ROOT

from .source import Item, items_of
from .table import Table

DECLARED = re.compile(r'^pub (?:const |extern "C" )?(?:fn|struct|enum|trait) (\w+)', re.MULTILINE)
# The folders of a crate that have edits. `rt ci` also tries those in the first one.
EDITS = ("must-fail", "wrong-bodies")


class Source:
    """A source by its path: its text, and the functions that stand in it."""

    def __init__(self, file: Path) -> None:
        self.file, self.path = Path(file), str(Path(file).relative_to(ROOT))
        self.module = "" if self.file.stem == "lib" else self.file.stem
        self.text = self.file.read_text(encoding="utf-8")
        self.lines = self.text.split("\n")

    @property
    def is_test(self) -> bool:
        """Whether it has tests: its name says so, or that of its crate."""
        return "test" in self.file.name or self.path.split("/")[1].endswith("_tests")

    @cached_property
    def functions(self) -> list[Item]:
        return [item for item in items_of(self.path, self.text) if item.kind == "function"]

    def names_of_variants(self, name: str) -> list[str]:
        """The variants of an enum, in their order."""
        (body,) = re.findall(rf"pub enum {name} \{{(.*?)^\}}", self.text, re.DOTALL | re.MULTILINE)
        return re.findall(r"^    (\w+)", body, re.MULTILINE)


class Crate:
    """A crate by its name."""

    def __init__(self, name: str) -> None:
        self.name, self.folder = name, ROOT / "crates" / name

    @cached_property
    def sources(self) -> list[Source]:
        return [Source(file) for file in sorted((self.folder / "src").rglob("*.rt"))]

    @cached_property
    def code(self) -> list[Source]:
        return [source for source in self.sources if not source.is_test]

    def files(self, part: str) -> list[Path]:
        """The definitions or proofs in one of its folders."""
        return sorted((self.folder / part).rglob("*.antt"))

    @property
    def edits(self) -> list[Path]:
        """The edits that make wrong bodies, those that are promised by name too."""
        return [file for part in EDITS for file in sorted((self.folder / part).rglob("*.edit"))]

    @cached_property
    def handed_out(self) -> set[tuple[str, str]]:
        """What its lib.rt hands out, as pairs of a module and a name; the module is empty for what stands in lib.rt
        itself. Nothing where it has no lib.rt."""
        root = next((source.text for source in self.sources if source.file.name == "lib.rt"), "")
        names = {("", name) for name in DECLARED.findall(root)}
        for module, several, one in re.findall(r"^pub use (\w+)::(?:\{([^}]*)\}|(\w+));", root, re.MULTILINE):
            names.update((module, name) for name in re.findall(r"\w+", several or one))
        return names

    @cached_property
    def public_calls(self) -> list[Item]:
        """Its public functions: those that it hands out, and the methods of the types and traits that it hands out.
        Two of them have one label if their types differ in arguments alone. What it hands on from another crate counts
        there."""
        types, calls = {name for _, name in self.handed_out}, []
        for source in self.code:
            for it in source.functions:
                is_method = bool(it.owner) and not it.trait and it.owner in types
                is_free = not it.owner and not it.indentation and (source.module, it.name) in self.handed_out
                if (it.is_public or it.within.is_public_trait) and (is_method or is_free):
                    calls.append(it)
        return calls


def crates() -> list[Crate]:
    """The crates that crates.txt lists, lowest first."""
    return [Crate(name) for name in Table(ROOT).lines]

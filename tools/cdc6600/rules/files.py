"""What the tables of docs/proof/definitions.md may name: the definitions, the functions, the proofs and the edits of
the crates.
"""

from cdc6600.crates.crate import EDITS, Crate, crates
from cdc6600.crates.definitions import imported, modules
from cdc6600.crates.source import Item
from cdc6600.shared.program import ROOT

PARTS = ("src", "specs", "proofs", *EDITS)
BY_HAND = ("Answers.antt", "Invariants.antt", "Proof.antt")


class Files:
    """All that the page may name."""

    def __init__(self) -> None:
        found = crates()
        self.modules = {name: it for crate in found for name, it in modules(crate.folder).items()}
        self.functions, self.cited = dict[tuple[str, str], Item](), list[str]()
        self.paths, self.by_hand = set[str](), dict[tuple[str, str], str]()
        for source in (source for crate in found for source in crate.sources):
            self.functions.update({(source.path, it.label): it for it in source.functions})
            self.cited += imported(source.text)[0].values()
        for crate in found:
            self.add_paths(crate)

    def add_paths(self, crate: Crate) -> None:
        """Adds the files of a crate and the folders that they stand in, and its proofs by hand. Such a proof has a
        folder with the name of its function, below one with the name of its type if it has one."""
        for file in (file for part in PARTS for file in (crate.folder / part).rglob("*")):
            path = str(file.relative_to(ROOT))
            self.paths.add(path)
            steps = path.split("/")
            if steps[2] == "proofs" and len(steps) > 4 and steps[-1] in BY_HAND:
                owner = f"{steps[4]}/" if len(steps) > 6 else ""
                folder = "/".join(steps[:-1])
                self.by_hand[crate.name, (owner + steps[-2]).replace("+", "", 1)] = folder

    def has_definition(self, name: str) -> bool:
        """Whether there is a definition of this name, as `machine/Tokens:is_live`."""
        module, _, definition = name.partition(":")
        return module in self.modules and definition in self.modules[module].definitions

    def all_cited(self) -> set[str]:
        """Every definition that a contract cites, or a definition that one cites."""
        left, found = list(self.cited), set[str]()
        while left:
            name = left.pop()
            if name not in found and self.has_definition(name):
                found.add(name)
                module, _, definition = name.partition(":")
                left += self.modules[module].named_in(definition)
        return found


def placed(name: str, folder: str) -> str:
    """The path of what stands in a folder of the crate that a name begins with."""
    return "crates/" + name.replace("/", f"/{folder}/", 1)

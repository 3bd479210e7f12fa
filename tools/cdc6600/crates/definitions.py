"""The definitions in a crate's folder specs, and the names that they cite."""

import re
from functools import lru_cache
from pathlib import Path
from typing import Iterator

# A line that imports definitions, or a module by another name.
USE = re.compile(
    r"^ *(?:pub )?(?:ghost )?use Rattle\.(\w+)\.specs\.([\w.]+?)(?:\.\{([^}]*)\}| as (\w+));?$", re.MULTILINE
)
COMMENT = re.compile(r"--[^\n]*")
DEFINES = re.compile(r"(?:(?:abbrev|unfoldable) )?pub (?!mod |use )(?:(?:record|data) )?([^\W\d][\w'-]*)")
NAME = re.compile(r"[^\W\d][\w'-]*(?:\.[\w'-]+)*")


def imported(text: str) -> tuple[dict[str, str], dict[str, str]]:
    """The imports of a text: each name with its definition, as `machine/Tokens:is_live`, and each name for a module
    with that module."""
    bound, alias = dict[str, str](), dict[str, str]()
    for crate, path, names, other in USE.findall(text):
        module = f"{crate}/{path.replace('.', '/')}"
        if path.startswith("declared."):
            continue
        if other:
            alias[other] = module
        for name, _, given in (it.strip().partition(" as ") for it in names.split(",")):
            bound[given or name] = f"{module}:{name}"
    return bound, alias


class Module:
    """A file of definitions: its name, as `machine/Tokens`, its imports, and each definition with its lines and the
    number of its first line."""

    def __init__(self, folder: Path, file: Path) -> None:
        self.path = f"crates/{file.relative_to(folder.parent)}"
        self.name = f"{folder.name}/{file.relative_to(folder / 'specs').with_suffix('')}"
        text = COMMENT.sub("", file.read_text(encoding="utf-8"))
        self.bound, self.alias = imported(text)
        self.definitions, self.numbers, current = dict[str, str](), dict[str, int](), ""
        for number, line in enumerate(text.split("\n"), 1):
            found = DEFINES.match(line)
            current = found[1] if found else current
            if current:
                self.numbers.setdefault(current, number)
                self.definitions[current] = f"{self.definitions.get(current, '')}{line} "

    def is_closed(self, name: str) -> bool:
        """Whether tactics look into a definition only if it is opened for them."""
        return self.definitions[name].startswith("unfoldable ")

    def named_in(self, name: str) -> Iterator[str]:
        """The names in a definition, each as `machine/Tokens:is_live`. Some of them are no definitions."""
        text = self.definitions[name]
        for found in NAME.finditer(text):
            word, _, rest = found[0].partition(".")
            # A field or a variable that is given its value or its type names no definition.
            if re.match(" [=:] ", text[found.end() :]):
                continue
            if rest and word in self.alias:
                yield f"{self.alias[word]}:{rest.partition('.')[0]}"
            else:
                yield self.bound.get(word, f"{self.name}:{word}")


@lru_cache(None)
def modules(folder: Path) -> dict[str, Module]:
    """The files of definitions of a crate, by their names."""
    found = (Module(folder, file) for file in sorted((folder / "specs").rglob("*.antt")))
    return {module.name: module for module in found}

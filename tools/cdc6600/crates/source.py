"""Reads the functions, constants and macros of a source, what they name, and what their contracts and comments say.

The sources are laid out by `rt fmt`, which the gate holds them to. So an item ends at the first line that is its
indentation and a closing brace, and no parser is needed.
"""

import re
from dataclasses import dataclass, field
from functools import cached_property
from pathlib import Path

HEAD = re.compile(r"(\s*)(?:pub(?:\([^)]*\))?\s+)?(?:const\s+)?(?:unsafe\s+)?(?:extern\s+\S+\s+)?fn\s+(\w+)")
CONSTANT = re.compile(r"\s*(?:pub(?:\([^)]*\))?\s+)?(?:const|static)\s+(\w+)\s*:")
MACRO = re.compile(r"macro_rules!\s+(\w+)")
DECLARES = re.compile(r"(?:pub(?:\([^)]*\))?\s+)?(?:struct|enum|trait|union)\s+(\w+)")
CLAUSE = re.compile(r" *(?:requires|ensures) ([a-z_0-9]+) \{")
CLAUSES = re.compile(r"^ *(?:requires|ensures)\b", re.MULTILINE)
# A line of the comment above an item, or of its attributes.
ABOVE = re.compile(r"\s*(?:///|#\[)")


@dataclass(frozen=True)
class Owner:
    """The `impl` or the trait in which an item stands."""

    name: str = ""  # the type of the `impl`, or the trait; nothing for an item outside
    trait: str = ""  # the trait that the `impl` is of
    is_instance: bool = False  # whether the `impl` is of a type at some arguments alone, as `Below<8>`
    is_trait: bool = False
    is_public_trait: bool = False


@dataclass(frozen=True)
class Item:
    """A function, a constant or a macro: where it stands (`first` and `last` are line numbers from 0), its text, and
    the comment and attributes above it."""

    path: str
    first: int
    last: int
    name: str
    text: str
    above: str = ""
    within: Owner = Owner()
    kind: str = "function"

    @property
    def owner(self) -> str:
        """The type of the `impl`, or the trait, that it stands in."""
        return self.within.name

    @property
    def trait(self) -> str:
        return self.within.trait

    def key(self) -> tuple[str, str, str]:
        """What tells it from the other items of its file, but for those of another `cfg`."""
        return self.name, self.owner, self.trait

    @property
    def label(self) -> str:
        """Its name after that of its type, if it has one."""
        return f"{self.owner}::{self.name}" if self.owner else self.name

    @property
    def number(self) -> int:
        """The number of its first line, from 1."""
        return self.first + 1

    @cached_property
    def lines(self) -> list[str]:
        return self.text.split("\n")

    @property
    def indentation(self) -> str:
        """The blanks before its first line."""
        return self.text[: -len(self.text.lstrip())]

    @property
    def is_public(self) -> bool:
        return self.text.lstrip().startswith("pub ")

    @cached_property
    def body_start(self) -> int:
        """The number of the line on which the body begins, after the contract."""
        alone = [at for at, line in enumerate(self.lines) if line in (self.indentation + "{", self.indentation + "{}")]
        opening = alone or [at for at, line in enumerate(self.lines) if line.endswith("{")] or [0]
        return self.first + opening[0]

    @property
    def size(self) -> int:
        """How many lines its body has."""
        return 0 if self.text.endswith(";") else max(self.last - self.body_start - 1, 0)

    def names(self) -> set[str]:
        return names_in("\n".join(self.lines[self.body_start - self.first :]))

    @cached_property
    def declaration(self) -> str:
        """Its signature and clauses, up to its body or its semicolon."""
        has_body = not self.text.endswith(";")
        return "\n".join(self.lines[: self.body_start - self.first + 1]) if has_body else self.text

    @property
    def signature(self) -> str:
        """What it is given and what it answers, without its clauses."""
        return CLAUSES.split(self.declaration, maxsplit=1)[0]

    @cached_property
    def clauses(self) -> set[str]:
        """The names of the clauses of its contract."""
        return {found[1] for found in map(CLAUSE.match, self.lines) if found}

    @property
    def comment(self) -> str:
        """Its comment, without the marks and what stands under `# Errors`."""
        lines = (line.strip() for line in self.above.partition("# Errors")[0].splitlines())
        return "\n".join(line.removeprefix("///").strip() for line in lines if line.startswith("///"))

    @property
    def errors(self) -> str:
        return self.above.partition("# Errors")[2]


def names_in(body: str) -> set[str]:
    """The words of a text, less comments and strings, that may be names of functions, constants or macros."""
    body = re.sub(r'//[^\n]*|"(?:[^"\\]|\\.)*"', " ", body)
    called = re.findall(r"\b(\w+)!?\s*(?:::<[^()]*>)?\s*\(|::(\w+)\b|\b(\w+)!\s*[\[{]|\b([A-Z][A-Z0-9_]+)\b", body)
    passed = re.findall(r"[(,]\s*(\w+)\s*(?=[,)])", body)
    return {word for words in called for word in words if word} | set(passed)


def module_of(path: str) -> tuple[str, ...]:
    """The module that a file holds, as its names from the crate's root on: `src/a/b.rt` is [a, b]."""
    steps = list(Path(path).with_suffix("").parts[1:])
    return tuple(steps[:-1] if steps[-1] in ("lib", "main", "mod") else steps)


def owner_of(line: str) -> Owner | None:
    """The `impl` or the trait that a line begins, if it begins one."""
    plain = re.sub(r"<[^<>]*>", "", re.sub(r"<[^<>]*>", "", line)).replace("->", "")
    found = re.match(r"impl\s+(?:([\w:]+)\s+for\s+)?&?(?:'\w+\s+)?([\w:]+)", plain)
    if found:
        is_instance = line.startswith("impl ") and re.search(r"<(?!')[^<>]*>\s*\{?$", line) is not None
        return Owner(found[2].split("::")[-1], (found[1] or "").split("::")[-1], is_instance)
    found = re.match(r"(pub(?:\([^)]*\))?\s+)?trait\s+(\w+)", plain)
    return Owner(found[2], is_trait=True, is_public_trait=found[1] == "pub ") if found else None


def items_of(path: str, text: str) -> list[Item]:
    """The functions, constants and macros of a file. A function inside another one is a part of it."""
    lines, found, at, owner = text.split("\n"), [], 0, Owner()
    while at < len(lines):
        line = lines[at]
        owner = owner_of(line) or (Owner() if line == "}" else owner)
        head, constant, macro = HEAD.match(line), CONSTANT.match(line), MACRO.match(line)
        last = at
        if head or macro:
            last = last_line(lines, at, head[1] if head else "")
        elif constant:
            last = next((n for n in range(at, len(lines)) if lines[n].endswith(";")), at)
        if it := head or constant or macro:
            name = head[2] if head else it[1]
            kind = "function" if head else "constant" if constant else "macro"
            above, text_of = "\n".join(lines[first_above(lines, at) : at]), "\n".join(lines[at : last + 1])
            found.append(Item(path, at, last, name, text_of, above, owner, kind))
        at = last + 1
    return found


def first_above(lines: list[str], at: int) -> int:
    """The first line of the comment and the attributes above a line."""
    while at and ABOVE.match(lines[at - 1]):
        at -= 1
    return at


def last_line(lines: list[str], at: int, indentation: str) -> int:
    """The last line of a function or a macro: its closing brace, or that of a declaration, which ends outside any
    brace."""
    head = lines[at].rstrip()
    if head.endswith(("}", ";")):
        return at
    has_body, open_braces = head.endswith("{"), 0
    for number in range(at + 1, len(lines)):
        line = lines[number].rstrip()
        has_body |= line == indentation + "{" or line.startswith(indentation + ")") and line.endswith("{")
        open_braces += line.count("{") - line.count("}")
        is_end = line == indentation + "}" if has_body else line.endswith(";") and not open_braces
        if is_end or line == indentation + "{}":
            return number
    return len(lines) - 1


@dataclass
class Sources:
    """The texts of a crate's sources by their path in the crate, and the items that stand in them."""

    texts: dict[str, str]
    items: list[Item] = field(default_factory=list)
    types: dict[str, list[tuple[str, ...]]] = field(default_factory=dict)  # the modules that declare a type

    @classmethod
    def read(cls, folder: Path) -> "Sources":
        files = sorted(Path(folder, "src").rglob("*.rt"))
        source = cls({str(file.relative_to(folder)): file.read_text(encoding="utf-8") for file in files})
        for path, text in source.texts.items():
            source.items += items_of(path, text)
            for line in text.split("\n"):
                declared = DECLARES.match(line)
                if declared:
                    source.types.setdefault(declared[1], []).append(module_of(path))
        return source

    def functions(self) -> list[Item]:
        """The functions among the items."""
        return [item for item in self.items if item.kind == "function"]

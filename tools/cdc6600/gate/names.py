"""Checks that what comments and pages name is there. It prints a line for each fault, and nothing if there is none.

- Names: the comment that begins a crate names in backquotes what the crate has: a module, a definition, or a name in
  its code. It may also name what a crate below declares, a crate, and an instruction; but a module only of its own.
- Paths of names: each part of a name such as `Lane::take`, in backquotes in any comment of a crate or in a page, is a
  name in the code of a crate or of the kit's crates that it uses.
- Beginnings: the comment that begins a crate names the file of the crate's tests, and ends with a sentence that says
  where to begin: `Begin with ..`. A crate of tests only says where to begin.
- Calls: a table of calls, whose head begins with `Call`, names public calls of the crates that its page names above it.
  The page of all public calls is generated instead.
- Paths: a path that begins with a folder of the repository is a file or a folder there, in the files of crates and in
  pages. In the sources of tools and tests this holds for tools, tests and pages, since these sources name decks and
  crates that they make. NAME stands for any name, and so does the crate in `crates/crate/`; `*` has to match something.
- Links: the target of a link in a page is there, with the section if one is named. Targets in the web aren't looked up.
- Examples: each block of Rust in docs/work/threads.md is in the test that it is from.

Run it after a change of names, of where files are, of docs/work/threads.md or of its test.
"""

import re
from functools import cache
from pathlib import Path
from typing import Iterator

from cdc6600.crates.crate import Crate, crates
from cdc6600.crates.table import Table
from cdc6600.shared.instructions import ROWS
from cdc6600.shared.program import ROOT

from .parts import told, tracked

QUOTED = re.compile(r"`([^`]*)`")
NAME = re.compile(r"\w+(?:(?:::|/)\w+)*")
WORD = re.compile(r"\w+")
PARTED = re.compile(r"[\w:]+(?:\(\))?")
SENTENCE = re.compile(r"(?<=[.:]) (?=[A-Z`])")
COMMENT = re.compile(r" *//")
# What a source declares: items, clauses of contracts, fields and variants; and what a file of definitions does.
ITEMS = (
    re.compile(r"\b(?:fn|struct|enum|trait|type|const|static|law) (\w+)"),
    re.compile(r"\b(?:requires|ensures) (\w+) \{"),
    re.compile(r"^ +(?:pub )?(\w+):", re.MULTILINE),
    re.compile(r"^    ([A-Z]\w*)\b", re.MULTILINE),
)
DEFINITION = re.compile(r"^(?:(?:abbrev|unfoldable) )?pub (?:(?:record|data) )?(\w+)", re.MULTILINE)
INSTRUCTIONS = {re.split("[^A-Z]", row.text)[0] for row in ROWS.values()}
# Other words of comments: the program, and the folder of a crate's definitions.
OTHERS = {"cdc6600", "specs"}

PATH = re.compile(r"(?<![\w/.-])(?:crates|decks|docs|tools|tests|bench|\.ci)/[\w./*-]*")
PLACEHOLDER = re.compile(r"\bNAME\b|^crates/crate/")
# What the sources of tools may not name falsely.
OF_TOOLS = ("tools/", "tests/", "docs/", "bench/", ".ci/")
# A name with parts that stands for any.
ANY_NAME = "Type::function"
KINDS = (".rt", ".antt", ".edit", ".h", ".c", ".rs", ".py")
LINK = re.compile(r"\]\(([^)\s]+)\)")
ELSEWHERE = re.compile(r"[a-z]+:")
EXAMPLES, OF_EXAMPLES = "docs/work/threads.md", "crates/lock_tests/src/example_tests.rt"
RUST = re.compile(r"^```rust\n(.*?)^```$", re.MULTILINE | re.DOTALL)

# How the names of files of tests end.
OF_TESTS = re.compile(r"_(?:tests|schedules)$")

TABLE, CRATES = Table(ROOT), {crate.name: crate for crate in crates()}
CALLS = "docs/proof/calls.md"

# ---- names and calls ----


def declared(crate: Crate) -> set[str]:
    """What the sources and definitions of a crate declare."""
    found = {name for source in crate.sources for item in ITEMS for name in item.findall(source.text)}
    for file in crate.files("specs"):
        found.update(DEFINITION.findall(file.read_text(encoding="utf-8")))
    return found


def said(crate: Crate) -> set[str]:
    """The words of a crate's code, with the names of its modules and of its files of definitions."""
    files = {source.file.stem for source in crate.sources} | {file.stem for file in crate.files("specs")}
    code = (line for source in crate.sources for line in source.lines if not COMMENT.match(line))
    return files.union(*(WORD.findall(line) for line in code))


def named_at_the_head(crate: Crate) -> Iterator[tuple[str, str]]:
    """What the comment that begins a crate names, each with its path and line."""
    for source in (it for it in crate.sources if it.file.name in ("lib.rt", "main.rt")):
        for number, line in enumerate(source.lines, 1):
            for text in QUOTED.findall(line) if line.startswith("//!") else []:
                if NAME.fullmatch(text) and not PATH.fullmatch(text):
                    yield f"{source.path}:{number}", text


def faults_of_names() -> Iterator[str]:
    """The names in the comments that begin the crates that neither the crate has nor one below it."""
    names = {crate.name: declared(crate) for crate in CRATES.values()}
    for crate in CRATES.values():
        known = said(crate) | names[crate.name] | INSTRUCTIONS | OTHERS | set(CRATES)
        known = known.union(TABLE.uses[crate.name], *(names[below] for below in TABLE.below(crate.name)))
        for where, text in named_at_the_head(crate):
            if not known.issuperset(re.split("::|/", text)):
                yield f"{where}: there is no `{text}` in {crate.name}, nor below it"


# ---- how the comment of a crate begins and ends ----


def faults_of_beginnings() -> Iterator[str]:
    """The crates whose first comments break the rule on beginnings."""
    tests = {source.file.stem for it in CRATES.values() for source in it.sources}
    for crate in CRATES.values():
        source = next(it for it in crate.sources if it.file.name in ("lib.rt", "main.rt"))
        text = " ".join(line.removeprefix("//!").strip() for line in source.lines if line.startswith("//!"))
        named = {name for quoted in QUOTED.findall(text) for name in WORD.findall(quoted)}
        if not SENTENCE.split(text)[-1].startswith("Begin with "):
            yield f"{source.path}: its first comment doesn't end with the place to begin"
        elif not crate.name.endswith("_tests") and not any(map(OF_TESTS.search, named & tests)):
            yield f"{source.path}: its first comment doesn't name the file of its tests"


# ---- the parts of names ----


# The words of all code, with the names of the crates, modules and files of definitions.
WORDS = {*CRATES, *(word for it in CRATES.values() for word in said(it) | declared(it) | {*TABLE.uses[it.name]})}


def faults_of_parts(name: str, lines: list[str]) -> Iterator[str]:
    """The names with parts that a file's comments, or a page, give to what no code has."""
    is_page = name.endswith(".md")
    for number, line in enumerate(lines, 1):
        for text in QUOTED.findall(line) if is_page or COMMENT.match(line) else ():
            is_parted = "::" in text and PARTED.fullmatch(text) and text != ANY_NAME
            if is_parted and not WORDS.issuperset(WORD.findall(text)):
                yield f"{name}:{number}: there is no `{text}`"


def faults_of_calls(page: str, lines: list[str]) -> Iterator[str]:
    """The calls of a page's tables that no crate has which the page names before."""
    calls, is_table = set[str](), False
    for number, line in enumerate(lines, 1):
        is_table = line.startswith("| Call |") or is_table and line.startswith("|")
        if is_table:
            for call in QUOTED.findall(line.split("|")[1]):
                if call not in calls:
                    yield f"{page}:{number}: no crate named above has a call `{call}`"
        else:
            for crate in (CRATES[name] for name in QUOTED.findall(line) if name in CRATES):
                calls.update(name for it in crate.public_calls for name in (it.label, it.name))


# ---- paths and links ----


def is_there(path: str) -> bool:
    """Whether there is a file or a folder at a path, or one that it stands for."""
    return bool(PLACEHOLDER.search(path)) or (any(ROOT.glob(path)) if "*" in path else (ROOT / path).exists())


def faults_of_paths(name: str, lines: list[str]) -> Iterator[str]:
    """The paths that a file names and that aren't there."""
    for number, line in enumerate(lines, 1):
        for found in PATH.findall(line):
            path = found.removesuffix("**").rstrip(".")
            is_made = name.startswith(("tools/", "tests/")) and not path.startswith(OF_TOOLS)
            if not is_there(path) and not is_made:
                yield f"{name}:{number}: there is no {path}"


@cache
def anchors(page: Path) -> set[str]:
    """What a link to a section of a page may end with."""
    heads = re.findall(r"^#+ (.*)$", page.read_text(encoding="utf-8"), re.MULTILINE)
    return {re.sub(r"[^\w -]", "", head.lower()).replace(" ", "-") for head in heads}


def faults_of_links(page: str, lines: list[str]) -> Iterator[str]:
    """The targets of a page's links that aren't there."""
    for number, line in enumerate(lines, 1):
        for target in (it for it in LINK.findall(line) if not ELSEWHERE.match(it)):
            name, _, section = target.partition("#")
            file = (ROOT / page).parent / name if name else ROOT / page
            if not file.exists():
                yield f"{page}:{number}: the link leads to no file: {target}"
            elif section and section not in anchors(file):
                yield f"{page}:{number}: the link leads to no section: {target}"


def faults_of_examples() -> Iterator[str]:
    """The blocks of Rust on the page that aren't in its test."""
    text, source = ((ROOT / path).read_text(encoding="utf-8") for path in (EXAMPLES, OF_EXAMPLES))
    for found in RUST.finditer(text):
        if found[1] not in source:
            yield f"{EXAMPLES}:{text[: found.start()].count(chr(10)) + 1}: {OF_EXAMPLES} hasn't this block"


def main() -> int:
    faults, pages = [*faults_of_names(), *faults_of_beginnings(), *faults_of_examples()], tracked("*.md")
    for name in [path for path in tracked("crates", "tools", "tests", "bench") if path.endswith(KINDS)] + pages:
        lines = (ROOT / name).read_text(encoding="utf-8").split("\n")
        faults += faults_of_paths(name, lines)
        faults += faults_of_parts(name, lines) if name.endswith((".rt", ".md")) else []
        if name in pages:
            faults += faults_of_links(name, lines)
            faults += faults_of_calls(name, lines) if name != CALLS else []
    return told(faults)

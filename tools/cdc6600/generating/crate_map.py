"""The map of the crates: what each one is, what it uses, and what its modules, definitions and proofs have."""

import re
from typing import Iterator

from cdc6600.crates.crate import Crate, crates
from cdc6600.crates.table import FILE, Table
from cdc6600.shared.program import ROOT

from .sizes import HEAD, row_of, sizes_of
from .texts import cell, comment_of, first_sentence

PAGE = "docs/work/crates.md"
INTRODUCTION = """# The map of the crates

`tools/check generated --write` writes this page from `crates.txt` and the sources. The crates come lowest first. A
crate's text is the comment that begins it: what it is, what its callers rely on, where its tests are, and where to
begin reading. *Uses* leaves out the crates that another one of them uses. A table lists the modules, the files of
definitions (`specs`) and those of lemmas (`proofs`) with the first sentence of each, or the names that a module
exports. The proofs of single functions, which have the name of their function, aren't listed. The last row names the
wrong bodies, which [definitions.md](../proof/definitions.md) has by rule.

- A definition belongs to the crate whose subject it is, even if only higher crates cite it: those of lists are in
  `instructions`, those of runs in `program_order`. The folder `specs/inner/` ties the fields of a crate's code to its
  definitions.
- The gate proves a crate that contains tests twice, with its tests and without. So most tests are in crates of their
  own, which export nothing and use what the tested crates export.
- `HANDLES` lists the handles, besides memory, that the outermost crates may ask for: threads and waiting. `crates.txt`
  says which crates may wait, and which tests may start threads. `rt ci` reads both.
"""
SIZES = """## Sizes

Without its tests, no crate has more than some 1,500 lines of code (the check refuses 1,550) or 100 functions, and no
function more than 40 lines. Lines of tests are those of the files with `test` in their names. If a crate has no proof,
the tactics find what its contracts need. In `program_order` only `Snapshot` runs; the four laws do nothing, and so have
no wrong body.
"""
# Files that belong to a function, or list the others.
OF_FUNCTIONS = {"Answers", "Lib", "Proof", "Invariants"}
EXPORTED = re.compile(r"^pub (?:const )?(?:fn|struct|enum|trait|type|const) (\w+)", re.MULTILINE)


def sections() -> list[tuple[str, list[str]]]:
    """The sections of crates.txt: the comment that begins each, after an empty line, and the names of its crates."""
    found = []
    for part in (ROOT / FILE).read_text(encoding="utf-8").split("\n\n")[1:]:
        head, *lines = part.strip().split("\n")
        found.append((head.removeprefix("# "), [line.partition(":")[0].split()[0] for line in lines]))
    return found


def used_by(table: Table, name: str) -> list[str]:
    """What a crate uses, without the crates that another one of them uses."""
    used = table.uses[name]
    further = {it for other in used if other in table.lines for it in table.below(other)}
    return [it for it in used if it not in further]


def modules_of(crate: Crate) -> Iterator[tuple[str, str]]:
    """A row for each module that isn't a test: what its comment says, or what it exports."""
    for source in crate.code:
        path = source.file.relative_to(crate.folder / "src")
        if path.name in ("lib.rt", "main.rt"):
            continue
        said = first_sentence(comment_of(source.lines, "//!"))
        names = ", ".join(f"`{name}`" for name in EXPORTED.findall(source.text))
        yield f"`src/{path}`", said or names


def written_in(crate: Crate, part: str) -> Iterator[tuple[str, str]]:
    """A row for each file of definitions or lemmas that begins with a comment."""
    for file in crate.files(part):
        said = first_sentence(comment_of(file.read_text(encoding="utf-8").splitlines(), "--"))
        if file.stem not in OF_FUNCTIONS and said:
            yield f"`{file.relative_to(crate.folder)}`", said


def bodies_of(crate: Crate) -> Iterator[tuple[str, str]]:
    """A row for the wrong bodies, if there are any."""
    if edits := crate.edits:
        bodies = "wrong body" if len(edits) == 1 else "wrong bodies"
        yield f"{len(edits)} {bodies}", ", ".join(sorted(f"`{file.stem}`" for file in edits))


def part_of(table: Table, crate: Crate) -> list[str]:
    """The part of the page about a crate."""
    root = next(source for source in crate.sources if source.file.name in ("lib.rt", "main.rt"))
    uses = ", ".join(f"`{name}`" for name in used_by(table, crate.name))
    lines = [f"### `{crate.name}`", "", comment_of(root.lines, "//!"), ""]
    lines += [f"Uses {uses}.", ""] if uses else []
    rows = [*modules_of(crate), *written_in(crate, "specs"), *written_in(crate, "proofs"), *bodies_of(crate)]
    if rows:
        lines += ["| File | What it has |", "|---|---|", *(f"| {name} | {cell(said)} |" for name, said in rows), ""]
    return lines


def text() -> str:
    table, by_name = Table(ROOT), {crate.name: crate for crate in crates()}
    lines = INTRODUCTION.split("\n")
    for head, names in sections():
        lines += [f"## {head}", ""]
        for name in names:
            lines += part_of(table, by_name[name])
    rows = [row_of(name, sizes_of(crate)) for name, crate in by_name.items()]
    return "\n".join([*lines, SIZES, *HEAD, *rows, ""])

"""The page of the public calls: what each one does, what it may refuse, how it returns, and what it requires.

Public are the functions that a crate's lib.rt hands out, and the methods of the types and traits that it hands out. A
call that a crate hands on from another one counts there.
"""

import re
from functools import cache
from typing import Collection, Iterator

from cdc6600.crates.crate import Source, crates
from cdc6600.crates.source import Item
from cdc6600.shared.program import ROOT

from .texts import cell, first_sentence

PAGE = "docs/proof/calls.md"
INTRODUCTION = """# The public calls

`tools/check generated --write` writes this page from the sources. It has a row for each public call of each crate: the
functions that the crate's `lib.rt` exports, and the methods of the exported types and traits. A call that a crate
re-exports is listed under the crate that defines it.

| Column | Meaning |
|---|---|
| What it does | the first sentence of its comment |
| May refuse | the refusals that its contract or its comment names, by their names in \
`crates/instructions/src/refusal.rt`. Any call that asks for memory may also refuse with `OutOfMemory` |
| Returns | *always*: the call can't block. It takes no `Wait` handle, and without one the checker rejects any \
function that may block or loop for ever. *when its device does*: it reads or writes by a device. *may wait*: it takes \
a `Wait` handle |
| Requires | the conditions that the caller has to prove before the call. Every other contract holds for all arguments |

A refused event leaves the machine as it was; that is part of the contract of each call that makes one. No function
takes an `Abort` handle, with which it could end the program instead of returning. `program`, which `main` calls, is in
`operator_main`, a crate that exports nothing. It requires nothing, and by its contract the exit status is that of the
request it carried out.
"""
HEAD = "| Call | What it does | May refuse | Returns | Requires |\n|---|---|---|---|---|"
NONE = "-"
REQUIRES = re.compile(r"requires (?:\w+ )?\{ (.*?) \}\n", re.DOTALL)
KINDS = ROOT / "crates/program_order/specs/Refusals.antt"


@cache
def refusals() -> list[str]:
    """The names of all refusals and faults of the program, in the order of the sources."""
    files = (("crates/instructions/src/refusal.rt", "Refusal"), ("crates/operator_terms/src/fault.rt", "ProgramFault"))
    return [name for path, kind in files for name in Source(ROOT / path).names_of_variants(kind)]


@cache
def of_kinds() -> dict[str, set[str]]:
    """The refusals of each definition of Refusals.antt, and those of each event."""
    text, kinds = KINDS.read_text(encoding="utf-8"), dict[str, set[str]]()
    for kind, refusal in re.findall(r"^(is_\w+) \(?(\w+)[^=]*= true", text, re.M):
        kinds.setdefault(kind, set()).add(refusal)
    for event, answer in re.findall(r"^may_refuse \(?(\w+)[^=]*=(.*)", text, re.M):
        kinds[event] = set[str]().union(*(kinds[kind] for kind in re.findall(r"is_\w+", answer)))
    return kinds


@cache
def of_tests() -> dict[str, set[str]]:
    """The refusals of each definition that lists the tests of an event, by its name."""
    found = {}
    for path in sorted(ROOT.glob("crates/*/specs/*.antt")):
        for name, text in re.findall(r"^(\w+_tests)\b[^:\n]*= *\n((?: .*\n)+)", path.read_text(encoding="utf-8"), re.M):
            found[name] = set(re.findall(r"refusal = (\w+)", text))
    return found


def named_by(call: Item) -> set[str]:
    """The refusals that a contract names, by themselves, by a definition of Refusals.antt, or by its event."""
    text = (ROOT / call.path).read_text(encoding="utf-8")
    imports = re.findall(r"Rattle\.program_order\.specs\.Refusals\.\{([^}]*)\}", text)
    kinds = set(re.findall(r"\w+", " ".join(imports))) & set(re.findall(r"\bis_\w+", call.declaration))
    events = re.findall(r"\bIs(?:Held)?Event self\.old \(?([A-Z]\w+)", call.declaration)
    names = set[str]().union(*(of_kinds()[kind] for kind in [*kinds, *events]))
    for pair in re.findall(r"(?:refusal|back\.0) ≡ (?:\(if .*? then )?(\w+)(?: else (\w+))?", call.declaration):
        names.update(pair)
    return names & set(refusals())


def tested_by(call: Item) -> set[str]:
    """The refusals of the tests that a contract cites."""
    tests = set(re.findall(r"\b\w+_tests\b", call.declaration)) & set(of_tests())
    return set[str]().union(*(of_tests()[name] for name in tests))


def listed(names: Collection[str]) -> str:
    """Some refusals, in the order of the sources."""
    return ", ".join(f"`{name}`" for name in dict.fromkeys(refusals()) if name in names)


def refusing(call: Item) -> str:
    """What a call may refuse: what its comment says under `# Errors`, and what else its contract names."""
    named, said = named_by(call), " ".join(line.strip().removeprefix("///") for line in call.errors.splitlines())
    said = " ".join(re.sub(r"#\[.*\]", "", said).split())
    further = listed({name for name in named if f"`{name}`" not in said} if said or named else tested_by(call))
    answer = call.signature.partition("->")[2].partition("\n")[0]
    if said or further:
        return f"{said} {further}".strip()
    failure = re.search(r"Result<.*, (\w+)>", answer)
    return "`None`" if re.match(r" *Option\b", answer) else f"`{failure[1]}`" if failure else "nothing"


def returning(call: Item) -> str:
    """How it returns, by what it is given."""
    if call.within.is_trait:
        return "as its type does"
    if re.search(r"\bWait\b", call.signature):
        return "may wait"
    if re.search(r": *(Input|Output|Read|BufRead|Write)\b", call.signature):
        return "when its device does"
    return "always"


def requiring(call: Item) -> str:
    """What its caller has to prove."""
    return " and ".join(f"`{' '.join(text.split())}`" for text in REQUIRES.findall(call.declaration)) or NONE


def rows_of(call: Item) -> Iterator[tuple[str, ...]]:
    """The rows of a call: one, or of `Machine::apply` one for each event."""
    does = first_sentence(call.comment)
    if call.label != "Machine::apply":
        yield call.label, does, refusing(call), returning(call), requiring(call)
        return
    for event in Source(ROOT / "crates/program_order/src/event.rt").names_of_variants("Event"):
        refused = listed(of_kinds().get(event, set())) or "nothing"
        yield f"{call.label}` of `{event}", does, refused, returning(call), requiring(call)


def text() -> str:
    parts = [INTRODUCTION]
    for crate in crates():
        if crate.public_calls:
            rows = [row for call in crate.public_calls for row in rows_of(call)]
            lines = [f"| `{label}` | {' | '.join(map(cell, rest))} |" for label, *rest in rows]
            parts.append("\n".join([f"## `{crate.name}`\n", HEAD, *lines, ""]))
    return "\n".join(parts)

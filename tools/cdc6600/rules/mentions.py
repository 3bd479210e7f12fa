"""Finds every line that belongs to a rule of the machine: what the rule's rows of docs/proof/definitions.md name, and
for a refusal the lines that name its label or its variant.
"""

import difflib
import re
from dataclasses import dataclass
from functools import cache
from typing import Callable, Iterable, Iterator

from cdc6600.crates.crate import EDITS, Crate, Source, crates
from cdc6600.crates.source import CLAUSE, Item
from cdc6600.shared.program import ROOT

from .files import Files, placed
from .labels import LABELS, Label
from .rows import PAGE, Row, functions_in, items_in, rows

HEADINGS = ("rule", "definition", "contract", "code", "proof", "wrong body", "test", "deck", "tool", "page")
# More columns of a line aren't printed.
WIDEST = 100
# The page with the refusals of each call.
CALLS = "docs/proof/calls.md"
# The line of a timeline that says what its marks mean, with a label as an example.
LEGEND = "refused with this number"
# Lines that only bring in a name.
IMPORTS = re.compile(r" *(?:ghost )?use ")
# These modules name labels as examples.
EXAMPLES = ("tools/cdc6600/rules/", "tools/cdc6600/commands/where.py", "tests/test_where.py")


@dataclass(frozen=True)
class Mention:
    """A line that belongs to a rule: its file, its number, and its text or the name of what it has."""

    path: str
    number: int
    text: str

    def __str__(self) -> str:
        text = self.text.strip()
        return f"{self.path}:{self.number}: {text if len(text) <= WIDEST else text[:WIDEST].rstrip() + ' ..'}"


@cache
def lines_of(path: str) -> list[str]:
    return (ROOT / path).read_text(encoding="utf-8", errors="replace").split("\n")


@cache
def all_crates() -> list[Crate]:
    """The crates, each read once."""
    return crates()


def at(path: str, number: int) -> Mention:
    return Mention(path, number, lines_of(path)[number - 1])


@cache
def below(folder: str, pattern: str) -> list[str]:
    """The paths of the files below a folder."""
    return sorted(str(file.relative_to(ROOT)) for file in (ROOT / folder).rglob(pattern) if file.is_file())


def matching(path: str, matches: Callable[[str], object]) -> list[Mention]:
    """The lines of a file that match."""
    return [at(path, number) for number, line in enumerate(lines_of(path), 1) if matches(line)]


def in_words(text: str) -> re.Pattern[str]:
    """What finds a text, as whole words in either case."""
    return re.compile(rf"(?<!\w){re.escape(text)}(?!\w)", re.IGNORECASE)


# ---- what a row names ----


class Cells:
    """Finds what the cells of a row name. What isn't there is left out: `tools/check definitions` reports it."""

    def __init__(self, files: Files) -> None:
        self.files = files
        self.finders: dict[str, Callable[[str, str], Iterable[Mention]]] = {
            "Definition": self.definitions, "Contract": self.contracts, "Code": self.codes, "Proof": self.proofs,
            "Wrong body": self.edits,
        }

    def mentions(self, row: Row) -> Iterator[tuple[str, Mention]]:
        """What a row names: pairs of a heading and a mention."""
        yield "rule", Mention(PAGE, row.number, row.rule)
        for column, find in self.finders.items():
            for item in items_in(row.cells[column]):
                name, _, rest = item.partition(": ")
                yield from ((column.lower(), mention) for mention in find(name, rest))
        if row.cells["Code"].startswith("body"):
            yield from (("code", mention) for mention in self.bodies(row))

    def definitions(self, name: str, rest: str) -> Iterable[Mention]:
        """Definitions of a file."""
        module = self.files.modules.get(name.removesuffix(".antt"))
        for it in re.split(", *", rest) if module else []:
            if module and it in module.numbers:
                yield at(module.path, module.numbers[it])

    def functions(self, name: str, rest: str) -> Iterator[tuple[Item, list[str]]]:
        """Functions of a source, each with the clauses that are named with it."""
        path = placed(name, "src")
        for label, clauses in functions_in(rest)[0]:
            if (path, label) in self.files.functions:
                yield self.files.functions[path, label], clauses

    def contracts(self, name: str, rest: str) -> Iterable[Mention]:
        """The functions of contracts, and the clauses that are named."""
        for function, clauses in self.functions(name, rest):
            yield Mention(function.path, function.number, function.label)
            for number, line in enumerate(function.lines, function.number):
                clause = CLAUSE.match(line)
                if clause and clause[1] in clauses:
                    yield at(function.path, number)

    def codes(self, name: str, rest: str) -> Iterable[Mention]:
        """The functions that do the work."""
        return (Mention(it.path, it.number, it.label) for it, _ in self.functions(name, rest))

    def bodies(self, row: Row) -> Iterator[Mention]:
        """The bodies of the functions of a row's contracts."""
        for item in items_in(row.cells["Contract"]):
            for it, _ in self.functions(*item.split(": ", 1)):
                if it.size:
                    yield Mention(it.path, it.body_start + 1, f"body of {it.label}")

    def proofs(self, name: str, _rest: str) -> Iterable[Mention]:
        """A file of proofs, or those of a folder."""
        path = placed(name, "proofs").rstrip("/")
        return [at(it, 1) for it in ([path] if path.endswith(".antt") else below(path, "*.antt")) if self.is_there(it)]

    def edits(self, name: str, _rest: str) -> Iterable[Mention]:
        """A wrong body, by the first line that it writes."""
        path = next(filter(self.is_there, (placed(name, it) for it in EDITS)), None)
        return matching(path, lambda line: line.startswith("new:"))[:1] if path else []

    def is_there(self, path: str) -> bool:
        """Whether a crate has this file."""
        return path in self.files.paths

    def named(self, row: Row) -> list[Item]:
        """The functions that a row names."""
        items = [item.split(": ", 1) for it in ("Contract", "Code") for item in items_in(row.cells[it])]
        return [it for item in items for it, _ in self.functions(*item)]


# ---- what names a label ----


def in_crates(label: Label) -> Iterator[tuple[str, Mention]]:
    """The lines of the crates that name a label or its variant, with their headings."""
    for crate in all_crates():
        for part, heading in (("specs", "definition"), ("proofs", "proof")):
            for file in crate.files(part):
                path = str(file.relative_to(ROOT))
                yield from ((heading, mention) for mention in matching(path, naming(label, path)))
        for source in crate.sources:
            said = matching(source.path, lambda line: label.is_in_code(line) or label.is_in(line))
            yield from (("test" if source.is_test else "code", mention) for mention in said)
            promised = [*in_clauses(label, source), *in_errors(label, source)]
            yield from (("contract", mention) for mention in promised if not source.is_test and mention not in said)


def in_clauses(label: Label, source: Source) -> list[Mention]:
    """The lines of a source that name a variant as contracts do."""
    return matching(source.path, naming(label, source.path)) if label.name_in(source.text) else []


def in_errors(label: Label, source: Source) -> Iterator[Mention]:
    """The lines of comments on the errors of calls that name a variant."""
    is_on_errors = False
    for number, line in enumerate(source.lines, 1):
        is_on_errors = line.lstrip().startswith("///") and (is_on_errors or line.endswith("# Errors"))
        if is_on_errors and label.is_promised_in(line):
            yield at(source.path, number)


def naming(label: Label, path: str) -> Callable[[str], bool]:
    """What says whether a line of a file of definitions, proofs or contracts names a label or its variant."""
    name = label.name_in("\n".join(lines_of(path)))
    return lambda line: not IMPORTS.match(line) and (label.is_in(line) or name is not None and bool(name.search(line)))


def beside_crates(label: Label) -> Iterator[tuple[str, Mention]]:
    """The lines of decks, tools and pages that name a label, with their headings."""
    for path in below("decks", "*"):
        found = matching(path, lambda line: LEGEND not in line and label.is_in(line))
        if found:
            yield "deck", Mention(path, found[0].number, f"{len(found)} line{'s' * (len(found) > 1)}")
    python = [*below("tools/cdc6600", "*.py"), *below("tests", "*.py")]
    tools = [path for path in python if not path.startswith(EXAMPLES)]
    pages = [path for path in (*below("docs", "*.md"), "README.md") if path != PAGE]
    for heading, paths in (("tool", tools), ("page", pages)):
        yield from ((heading, mention) for path in paths for mention in matching(path, label.is_in))
    yield from (("page", mention) for mention in matching(CALLS, lambda line: is_call_refusing(label, line)))


def is_call_refusing(label: Label, line: str) -> bool:
    """Whether a line is the row of a call that may refuse so."""
    return line.startswith("| `") and label.is_promised_in(re.split(r"(?<!\\)\|", line)[3])


def is_tried(label: Label) -> bool:
    """Whether a test or a deck names a label."""
    tests = [source.path for crate in all_crates() for source in crate.sources if source.is_test]
    lines = (line for path in (*tests, *below("decks", "*")) for line in lines_of(path))
    return any(LEGEND not in line and (label.is_in_code(line) or label.is_in(line)) for line in lines)


# ---- a rule ----


def calls(functions: list[Item], words: set[str]) -> re.Pattern[str]:
    """What finds the calls of functions in a source with these words. A source that doesn't name the type of a method
    calls another method of that name."""
    methods = {it.name for it in functions if it.owner in words}
    free = {it.name for it in functions if not it.owner}
    named = [rf"(?:\.|::){name}\(" for name in methods] + [rf"(?<![.:])\b{name}\(" for name in free]
    return re.compile("|".join(named) or "(?!)")


class Rules:
    """The rules of the page, and the refusals."""

    def __init__(self, files: Files | None = None) -> None:
        self.cells, self.rows = Cells(files or Files()), list(rows())
        self.order = {crate.name: number for number, crate in enumerate(all_crates())}

    def labels_of(self, rule: str) -> list[Label]:
        """The label of this number, or those whose texts have these words."""
        named, words = LABELS.get(rule.upper()), in_words(rule)
        return [named] if named else [label for label in LABELS.values() if words.search(label.text)]

    def rows_of(self, rule: str) -> list[Row]:
        """The rows that name a rule in their first cells: by its words, or by a label that it has."""
        texts = [rule, *(label.number for label in self.labels_of(rule))]
        return [row for row in self.rows if any(in_words(it).search(row.rule.replace("`", "")) for it in texts)]

    def by_rows(self, rule: str) -> dict[str, list[Mention]]:
        """What the rows of a rule name, by headings."""
        return self.sorted(pair for row in self.rows_of(rule) for pair in self.cells.mentions(row))

    def all(self, rule: str) -> dict[str, list[Mention]]:
        """All that belongs to a rule, by headings in their order; nothing if there is no such rule."""
        found = [pair for row in self.rows_of(rule) for pair in self.cells.mentions(row)]
        for label in self.labels_of(rule):
            found += [*in_crates(label), *beside_crates(label)]
        if rule.upper() not in LABELS:
            found += self.calls_in_tests(rule)
        return self.sorted(found)

    def calls_in_tests(self, rule: str) -> Iterator[tuple[str, Mention]]:
        """The lines of tests that call the functions of a rule's rows."""
        functions = [it for row in self.rows_of(rule) for it in self.cells.named(row)]
        for source in (source for crate in all_crates() for source in crate.sources if source.is_test):
            pattern = calls(functions, set(re.findall(r"\w+", source.text)))
            yield from (("test", mention) for mention in matching(source.path, pattern.search))

    def sorted(self, pairs: Iterable[tuple[str, Mention]]) -> dict[str, list[Mention]]:
        """Mentions by their headings, each line once, those of the lowest crate first."""
        found = {heading: dict[tuple[str, int], Mention]() for heading in HEADINGS}
        for heading, mention in pairs:
            found[heading].setdefault((mention.path, mention.number), mention)
        return {heading: sorted(it.values(), key=self.key) for heading, it in found.items() if it}

    def key(self, mention: Mention) -> tuple[int, str, int]:
        """Where a mention is in the order of the crates and files."""
        steps = mention.path.split("/")
        return self.order.get(steps[1], 0) if steps[0] == "crates" else 0, mention.path, mention.number

    def near(self, rule: str) -> list[str]:
        """Words of rules and labels that look like these."""
        texts = [*(row.rule for row in self.rows), *(label.text for label in LABELS.values())]
        words = {word.lower(): word for text in texts for word in re.findall(r"\w+", text) if len(word) > 1}
        return [words[it] for it in difflib.get_close_matches(rule.lower(), sorted(words), 5)]

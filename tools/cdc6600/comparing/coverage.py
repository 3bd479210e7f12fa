"""How many decks show each instruction, and each of its edges."""

import json
from collections import Counter
from itertools import groupby
from typing import Iterable, Iterator, Sequence

from cdc6600.shared.instructions import ROWS, instruction

from .edges import Shown, edges_of
from .proved import Proved
from .reports import Issue
from .steps import EACH, MANY
from .suites import Case
from .tracing import Trace

# The width of the texts of rows and the least one of other columns, and the name of the first of these.
WIDTH, NARROWEST, DECKS = 12, 5, "decks"


def shown_by(case: Case, proved: Proved) -> set[str | tuple[str, str]]:
    """The codes of the rows that the log of a case carries out, and each code with each edge that is shown. Of a log
    that is longer than MANY steps the first EACH steps count."""
    given, log = case.given(proved)
    trace, found = Trace(proved, given, log), set[str | tuple[str, str]]()
    total = len(trace.steps)
    snapshots = trace.snapshots(range((total if total <= MANY else EACH) + 1))
    before = next(snapshots)
    for number, after in enumerate(snapshots, 1):
        it = instruction(Issue(before).text) if trace.steps.entry(number)[0] == "I" else None
        if it:
            found |= {it.row.code, *((it.row.code, edge) for edge in Shown(it, before, after).edges)}
        before = after
    return found


def parted(code: str) -> list[list[str]]:
    """The edges of a row: the part of the instruction that each is about, and the name of what it has there."""
    return [edge.split(" ") for edge in edges_of(ROWS[code])]


class Coverage:
    """The numbers of decks that show instructions and edges, by what each deck shows."""

    def __init__(self, shown: Iterable[set[str | tuple[str, str]]]) -> None:
        self.decks, self.numbers = 0, Counter[str | tuple[str, str]]()
        for found in shown:
            self.decks += 1
            self.numbers.update(found)

    @property
    def lines(self) -> Iterator[str]:
        """The numbers as tables: one for neighbouring rows with edges of the same names, with a line for each row."""
        for names, codes in groupby(ROWS, lambda code: [name for _, name in parted(code)]):
            yield from self.table(names, list(codes))
            yield ""

    def table(self, names: Sequence[str], codes: Sequence[str]) -> Iterator[str]:
        """The lines of a table: two with the names of its columns, and one for each row. A column is as wide as its
        name, and the name of a part of an instruction stands over all columns of that part."""
        widths = [max(NARROWEST, len(name)) for name in names]
        columns = zip(*([part for part, _ in parted(code)] for code in codes))
        parts = ["/".join(sorted(set(column))) for column in columns]
        spans = [(part, sum(width + 1 for _, width in group) - 1)
                 for part, group in groupby(zip(parts, widths), lambda column: column[0])]
        if spans:
            yield self.line("", "", [f"  {part:{width - 2}}" for part, width in spans])
        yield self.line("", DECKS, [f"{name:>{width}}" for name, width in zip(names, widths)])
        for code in codes:
            numbers = [self.numbers[code, edge] for edge in edges_of(ROWS[code])]
            cells = [f"{number:{width}}" for number, width in zip(numbers, widths)]
            yield self.line(ROWS[code].text, self.numbers[code], cells)

    @staticmethod
    def line(text: str, decks: object, cells: Iterable[str]) -> str:
        return " ".join([f"{text:{WIDTH}} {decks:>{NARROWEST}}", *cells]).rstrip()

    @property
    def missing(self) -> list[str]:
        """The rows and the edges that no deck shows."""
        rows = [ROWS[code].text for code in ROWS if not self.numbers[code]]
        return rows + [f"{row.text}: {edge}" for row in ROWS.values() for edge in edges_of(row)
                       if not self.numbers[row.code, edge]]

    @property
    def json(self) -> str:
        rows = [{"code": row.code, "text": row.text, "decks": self.numbers[row.code],
                 "edges": {edge: self.numbers[row.code, edge] for edge in edges_of(row)}} for row in ROWS.values()]
        return json.dumps({"decks": self.decks, "instructions": rows}, indent=1)

"""Draws a session that was followed: as text, or as a picture in SVG. A column is an event or, if the minor cycles of
the events are given, a minor cycle with all its events."""

import xml.etree.ElementTree as ET
from bisect import bisect_left
from collections import defaultdict
from pathlib import Path
from typing import Iterable, Iterator, Mapping, Sequence

from .following import IN_CHANNEL, IN_HOPPER, LETTER, RESERVED, Fault, Following
from .units import UNITS

SVG, SPACE = "http://www.w3.org/2000/svg", "{http://www.w3.org/XML/1998/namespace}space"
COLOURS = {RESERVED: "#cfe0f5", IN_HOPPER: "#f7dfa5", IN_CHANNEL: "#cdebc8"}
REFUSED = "#b00000"
# The sizes of the picture: of a line, of an event's column, and of a letter.
LINE, COLUMN, LETTER_WIDTH, MARGIN = 22, 34, 8, 10
# What is left free between two marks that are longer than a column.
GAP = 10
BAR_HEIGHT, BAR_RISE, LEAST_WIDTH = 14, 11, 880
# The most columns of a picture or a page: a browser doesn't show what is much wider.
MOST_COLUMNS = 5000
# The two rows above that of the machine.
EVENTS, KINDS = -2, -1
ACCESSES = "machine: P a peripheral processor read a word   W it wrote one"
LEGENDS = [
    "I issued   R read   F finished   S stored   E9 refused with this number",
    "H0 stored, its reference in place 0 of the hopper   O stored, its reference out of range",
    "A its reference accepted   L its load returned   D carried out by the drain",
    "--- reserved in its unit   === in the hopper   ~~~ in its channel, still to return",
    "machine: Q exchange asked for, --- until X made   I issued without a unit   B8 bank 8 freed",
]
CYCLES = "cycle: minor cycles by the file of times; a column has all events of its cycle, refused ones too"
BEGIN = "The first issue is at cycle {}. An earlier cycle without an event has no column."
LETTERS = "The small letters say what each event is: l a return, q an ask, d the drain, e the end."


class Form:
    """The drawing: the labels of its rows, its marks and gaps by row and column, and the lines below it. `numbers` has
    what stands above each column, `column_of` the column of each event, and `events` the events of each column.

    With minor cycles `start` has the numbers of the first columns, up to the first issue."""

    def __init__(self, following: Following, cycles: Sequence[int] | None = None,
                 start: Sequence[int] | None = None) -> None:
        self.following, self.is_timed = following, cycles is not None
        moments = range(1, following.columns + 1) if cycles is None else cycles
        start = [] if cycles is None else start or start_of([(following, cycles)])
        after = start[-1] + 1 if start else 1
        self.numbers = [*start, *range(after, max(moments, default=0) + 1)]
        columns = {number: column for column, number in enumerate(self.numbers)}
        self.column_of = [columns[moment] for moment in moments]
        self.events: list[list[int]] = [[] for _ in self.numbers]
        for n, column in enumerate(self.column_of):
            self.events[column].append(n)
        self.labels = dict(enumerate(self.names(), EVENTS))
        self.wide = max(len(label) for label in self.labels.values())
        begins = [BEGIN.format(start[-1])] * (len(start) <= start[-1]) if start else []
        self.legends = [*LEGENDS, *[ACCESSES] * following.has_accesses, *[CYCLES] * self.is_timed, *begins, LETTERS]
        self.last_lines = [*following.refused, following.ending]
        # The first event of each column or, in an empty one, the next event.
        self.firsts = [bisect_left(self.column_of, column) for column in range(len(self.events))]
        self.cells = self.filled_cells()
        # The letters of the longest mark.
        self.longest = max((len(self.mark(row, at)) for row in self.labels for at in self.columns(row)), default=1)
        self.arrange(self.wide, max(COLUMN, LETTER_WIDTH * self.longest + GAP), len(self.events))

    def names(self) -> list[str]:
        """The labels of the rows, from above."""
        reserved = [f"{row:2d} {it.unit:<10} {it.text}" for row, it in enumerate(self.following.rows) if row]
        return ["cycle" if self.is_timed else "event", "", "machine", *reserved]

    def arrange(self, wide: int, column: int, columns: int) -> None:
        """Arranges the picture for labels of so many letters, and for so many columns of a width: where the first one
        begins, how wide the picture is, and how high its rows are together."""
        self.left, self.height = LETTER_WIDTH * wide + MARGIN, LINE * len(self.labels) + MARGIN
        self.column, self.width = column, self.left + column * columns + 2 * MARGIN

    def filled_cells(self) -> defaultdict[int, set[int]]:
        """The columns in which a row has a mark, or something before it, by the rows."""
        following, cells, after = self.following, defaultdict[int, set[int]](set), defaultdict[int, list[int]](list)
        for column, n in enumerate(self.firsts):
            after[n].append(column)
        for row, n in following.gaps:
            cells[row].update(after[n])
        for row, n in following.marks:
            cells[row].update(self.column_of[n : n + 1])
        return cells

    def columns(self, row: int) -> Sequence[int]:
        """The columns of a row that may have something, from left to right."""
        return sorted(self.cells[row]) if row >= 0 else range(len(self.events))

    def mark(self, row: int, column: int) -> str:
        """What a row has in a column."""
        if row == EVENTS:
            return str(self.numbers[column])
        return "".join(self.mark_of_event(row, n) for n in self.events[column])

    def mark_of_event(self, row: int, n: int) -> str:
        """What a row has at an event."""
        if row == KINDS:
            return LETTER[self.following.session.events[n].split(" ")[0]].lower()
        return self.following.marks.get((row, n), "")

    def gap(self, row: int, column: int) -> str:
        """What a row has between a column and the one before."""
        return self.following.gaps.get((row, self.firsts[column]), "")

    def text(self) -> str:
        return "".join(f"{line}\n" for line in self.lines())

    def lines(self) -> Iterator[str]:
        """The lines of the drawing as text."""
        width = max(len(str(max(self.numbers, default=0))) + 1, 4, self.longest + 1 if self.is_timed else 0)
        for row, label in self.labels.items():
            yield self.line(row, f"{label:<{self.wide}}", width).rstrip(" ")
        yield from ["", *self.last_lines, "", *self.legends]

    def line(self, row: int, label: str, width: int) -> str:
        """A row as text: its label, and its columns of this width up to the last one that has something."""
        columns = self.columns(row)
        first, end = (columns[0], columns[-1] + 1) if columns else (0, 0)
        return label + " " * (width * first) + "".join(self.padded(row, n, width) for n in range(first, end))

    def padded(self, row: int, column: int, width: int) -> str:
        """The mark in a column, with what its row has before it."""
        gap = self.gap(row, column) or " "
        return (self.mark(row, column) or gap).rjust(width, gap)

    def check_columns(self) -> None:
        """Raises Fault where a picture has no room for all columns."""
        check_columns(self.following.session.file, len(self.events), "minor cycles" if self.is_timed else "events")

    def picture(self) -> str:
        self.check_columns()
        height = LINE * (len(self.labels) + len(self.last_lines) + len(self.legends) + 3)
        root = picture_of(max(self.width, LEAST_WIDTH), height)
        for row in self.labels:
            self.add_label(root, row)
            self.add_row(root, row)
        self.add_lines(root, LINE * len(self.labels))
        return written(root)

    def add_label(self, root: ET.Element, row: int, y: int | None = None) -> None:
        """Adds a row's label, at its own height or at another one."""
        if self.labels[row]:
            add_text(root, MARGIN, y or self.line_of(row), self.labels[row])

    @staticmethod
    def line_of(row: int) -> int:
        """How far down a row is written."""
        return LINE * (row - EVENTS + 1)

    def add_row(self, root: ET.Element, row: int, y: int | None = None, within: range | None = None) -> None:
        """Adds a row's bars, and over them its marks: at its own height or at another one, of all columns or of a range
        of them."""
        within = within or range(len(self.events))
        y, wide = y or self.line_of(row), self.column
        middle = self.left + wide // 2 - wide * within.start
        columns = [at for at in self.columns(row) if at in within]
        for at in (at for at in columns if self.gap(row, at)):
            x = max(middle + wide * (at - 1), self.left)
            add_bar(root, x, y, middle + wide * at - x, self.gap(row, at))
        for at in (at for at in columns if self.mark(row, at)):
            mark = self.mark(row, at)
            colour = {"fill": REFUSED} if mark.startswith("E") else {}
            add_text(root, middle + wide * at, y, mark, {"text-anchor": "middle", **colour})

    def rows_in(self, columns: Iterable[int]) -> list[int]:
        """The rows of some columns: those above the reservations, and those with a mark or a bar there."""
        return [row for row in self.labels if row <= 0 or not self.cells[row].isdisjoint(columns)]

    def add_lines(self, root: ET.Element, y: int) -> None:
        """Adds the lines below the rows, the last of which stands at a height."""
        y += LINE
        for line in self.last_lines:
            y += LINE
            add_text(root, MARGIN, y, line)
        self.add_legends(root, y + LINE)

    def add_legends(self, root: ET.Element, y: int) -> None:
        """Adds the lines that say what the marks mean, below a height. A legend has bars in its text's gaps."""
        for legend in self.legends:
            y += LINE
            for gap in (gap for gap in COLOURS if 3 * gap in legend):
                add_bar(root, LETTER_WIDTH * (legend.index(3 * gap) + 1), y, 28, gap)
                legend = legend.replace(3 * gap, "   ", 1)
            add_text(root, MARGIN, y, legend)


class UnitForm(Form):
    """The drawing with a row for each unit. A reservation has its number at its issue, and from there on a bar up to
    its store event."""

    def __init__(self, following: Following, cycles: Sequence[int] | None = None,
                 start: Sequence[int] | None = None) -> None:
        self.held = held_units(following)
        super().__init__(following, cycles, start)

    def names(self) -> list[str]:
        """The labels of the rows, from above."""
        return ["cycle" if self.is_timed else "event", *UNITS]

    def columns(self, row: int) -> Sequence[int]:
        """The columns of a row that may have something: all."""
        return range(len(self.events))

    def unit(self, row: int) -> str:
        return self.labels[row]

    def mark_of_event(self, row: int, n: int) -> str:
        """What a row has at an event: the number of the reservation that is issued to the unit."""
        after = self.held[n + 1].get(self.unit(row), 0)
        return str(after) if after and after != self.held[n].get(self.unit(row)) else ""

    def gap(self, row: int, column: int) -> str:
        """What a row has between a column and the one before."""
        return RESERVED if row != EVENTS and self.unit(row) in self.held[self.firsts[column]] else ""

    def rows_in(self, columns: Iterable[int]) -> list[int]:
        return list(self.labels)


def held_units(following: Following) -> list[dict[str, int]]:
    """The reservations by the units that they hold: before each event, and at the end."""
    found, now = [dict[str, int]()], dict[str, int]()
    rows = {n: row for row, n in following.marks if row}
    for n in range(following.columns):
        kind, row = following.session.events[n].split(" ")[0], rows.get(n)
        if kind == "drain":
            now = {}
        elif kind in ("issue", "store") and row and not following.is_refused(n):
            now = {unit: other for unit, other in now.items() if other != row}
            now |= {following.rows[row].unit: row} if kind == "issue" else {}
        found.append(now)
    return found


def start_of(sessions: Iterable[tuple[Following, Sequence[int]]]) -> list[int]:
    """The numbers of the first columns of some sessions with the minor cycles of their events: the earlier cycles with
    an event, and the cycle of the first issue."""
    issues = (cycles[n] for following, cycles in sessions for n in range(following.columns)
              if following.session.events[n] == "issue" and not following.is_refused(n))
    first = min(issues, default=0)
    return sorted({first, *(cycle for _, cycles in sessions for cycle in cycles if cycle < first)})


def check_columns(file: str | Path, columns: int, what: str) -> None:
    """Raises Fault where a session has too many columns to be drawn as a picture."""
    if columns > MOST_COLUMNS:
        limit = f"a picture or a page has room for {MOST_COLUMNS}; as text all are drawn"
        raise Fault(file, f"{columns} {what}, and {limit}")


def picture_of(width: int, height: int) -> ET.Element:
    """A picture of this size with nothing but its background."""
    ET.register_namespace("", SVG)
    font = {"font-family": "monospace", "font-size": "13"}
    root = ET.Element(f"{{{SVG}}}svg", {"width": str(width), "height": str(height), **font})
    ET.SubElement(root, f"{{{SVG}}}rect", width="100%", height="100%", fill="white")
    return root


def written(root: ET.Element) -> str:
    ET.indent(root, "")
    return ET.tostring(root, encoding="unicode") + "\n"


def add_text(root: ET.Element, x: int, y: int, said: str, attributes: Mapping[str, str] | None = None) -> None:
    """Adds a text at a place."""
    it = ET.SubElement(root, f"{{{SVG}}}text", {"x": str(x), "y": str(y), SPACE: "preserve", **(attributes or {})})
    it.text = said


def add_bar(root: ET.Element, x: int, y: int, width: int, gap: str) -> None:
    """Adds a bar in the colour of what it stands for."""
    place = {"x": x, "y": y - BAR_RISE, "width": width, "height": BAR_HEIGHT}
    ET.SubElement(root, f"{{{SVG}}}rect", {name: str(it) for name, it in place.items()}, fill=COLOURS[gap])

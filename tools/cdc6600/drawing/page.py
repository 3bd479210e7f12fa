"""Writes a session that was followed as a page of HTML, which needs nothing beside itself.

Without scripts the page has the picture and a table of all events. With them it has a cursor that steps through the
events, and for each step the panel of the machine. page.html is the frame, page.css how it looks, page.js the cursor;
panel.html and panel.js are the panel, which the page that drives a machine (tools/cdc6600/driving) has too.
"""

import html
import json
import re
import xml.etree.ElementTree as ET
from pathlib import Path
from string import Template
from typing import Any, Iterable, Iterator, Mapping

from cdc6600.shared.telling import sentence
from cdc6600.timing.reservations import rows_of
from cdc6600.timing.times import Times
from cdc6600.timing.totals import Totals
from cdc6600.timing.waits import Account

from .following import ENDS, IN_CHANNEL, IN_HOPPER, LETTER, RESERVED, Following
from .forms import COLOURS, EVENTS, KINDS, REFUSED, SVG, Form, UnitForm, picture_of
from .panel import ROOM, Panel
from .pictures import HELD, pieces, units
from .retracing import retraced
from .tables import card, reservations, totals
from .values import REGISTERS, changes, number_of
from .words import Words

FOLDER = Path(__file__).resolve().parent
HEADS = {
    "units": ("Unit", "No.", "Instruction", "Phase"), "places": ("Place", "No.", "Instruction", "Reference"),
    "channels": ("Channel", "No.", "Instruction", "Load"),
}
DATA = re.compile(r'<script type="application/json" id="session">(.*?)</script>', re.DOTALL)
# What is left below the rows that stay in sight.
HEAD_MARGIN = 6
TITLES = {"units": "Units", "places": "Hopper", "channels": "Load channels"}
# The colours of the picture by the names that page.css has for them.
COLOUR_NAMES = {COLOURS[RESERVED]: "reserved", COLOURS[IN_HOPPER]: "hopper", COLOURS[IN_CHANNEL]: "channel"}


class Page:
    """The page of a session: what each step shows, and the text of it all."""

    def __init__(self, following: Following, title: str, description: str = "", links: str = "",
                 times: Times | None = None) -> None:
        self.following, self.title, self.description, self.links = following, title, description, links
        self.retracing, self.account = retraced(following), Account(following, times) if times else None
        cycles = self.account.cycles if self.account else None
        self.form, self.unit_form = Form(following, cycles), UnitForm(following, cycles)
        self.form.check_columns()
        self.words, self.values = Words(self.retracing), [state.values for state in self.retracing.states]

    def steps(self) -> list[dict[str, Any]]:
        """What each step shows, an event for each."""
        return [self.step(n, self.form.line_of(row)) for n, row in enumerate(self.rows_in_sight())]

    def step(self, n: int, line: int) -> dict[str, Any]:
        """What is shown of an event: its line, its answer, the same in words, the panel after it, the values that it
        has changed, and how far down in the picture the row stands that is in sight."""
        event, is_refused = self.following.session.events[n], self.following.is_refused(n)
        refusal = self.retracing.refusals.get(n)
        holds = [str(row) for row in refusal.rows] if refusal else []
        parts = Panel(self.retracing.view(n + 1)).parts()
        return {"event": event, "answer": self.answer(n), "words": self.words.said(n), "refused": is_refused,
                "holds": holds, "values": changes(self.values[n + 1], self.values[n]), "line": line, **parts}

    def rows_in_sight(self) -> Iterator[int]:
        """For each event the last row of the picture that it has a mark in. An event of no reservation, such as the
        freeing of a bank, leaves the picture where it is."""
        last, row = dict[int, int](), 0
        for marked, n in self.following.marks:
            last[n] = max(marked, last.get(n, 0))
        for n in range(self.following.columns):
            row = last.get(n) or row
            yield row

    def answer(self, n: int) -> str:
        """The answer to an event in a line. What the last line of a schedule prints stands at the page's end."""
        answer = self.following.answers[n]
        is_dump = self.following.session.events[n] in ENDS and answer != "NOT DRAINED"
        return "the dump" if is_dump else answer

    def text(self) -> str:
        following, steps = self.following, self.steps()
        return Template(read("page.html")).substitute(
            title=html.escape(self.title), description=self.lead(), links=self.links,
            style=read("page.css") + picture_style(), script=read("panel.js") + read("page.js"),
            picture=self.picture(),
            pieces=pieces(self.form), held=units(self.unit_form), held_by_units=HELD,
            labels=self.labels(), heads=self.heads(), corner=self.corner(),
            legends="".join(map(legend_of, self.form.legends)),
            count=len(steps), panel=panel_frame(self.values[0]),
            above=self.tables() if self.account else "", below="" if self.account else self.tables(),
            rows="".join(row_of(n, step, self.words.told(n)) for n, step in enumerate(steps)),
            ending=html.escape(self.ending()), data=json.dumps(self.data(steps)).replace("<", "\\u003c"),
            counted=f"{len(steps)} events, {len(following.rows) - 1} reservations",
        )

    def tables(self) -> str:
        """The table of the reservations, and with minor cycles that of the totals before it."""
        found = card("reservations", "The reservations",
                     reservations(rows_of(self.following, self.account), bool(self.account)))
        if not self.account:
            return found
        it = Totals(self.account.clock, self.following.log.text)
        return card("totals", "Minor cycles", totals([it], [html.escape(self.title)])) + found

    def lead(self) -> str:
        """What the session shows, as sentences."""
        return marked_up(self.description) + "." * bool(self.description)

    def data(self, steps: list[dict[str, Any]]) -> dict[str, Any]:
        """What the script reads."""
        form, values = self.form, changes(self.values[0], {})
        columns = {"left": form.left, "column": form.column, "columns": form.column_of, "width": form.width}
        below = {"head": self.head_height(), "below": list(self.below())}
        return {"steps": steps, "values": values, "boot": Panel(self.retracing.view(0)).parts(), **columns, **below,
                "cycles": self.account and self.account.cycles}

    def below(self) -> Iterator[int]:
        """For each number of events how far down in the picture the rows begin that aren't issued by these."""
        issued = {n for (row, n), mark in self.following.marks.items() if row and mark == LETTER["issue"]}
        for n in range(self.following.columns + 1):
            yield self.form.line_of(sum(event < n for event in issued)) + HEAD_MARGIN

    def ending(self) -> str:
        """The lines at the end: the dump, or that there is none."""
        following, last = self.following, self.following.columns - 1
        if last >= 0 and following.session.events[last] in ENDS:
            return "\n".join(following.answers[last:])
        return following.ending

    def picture(self) -> str:
        """The rows of the picture, with a cursor behind their marks, and a text that stands for them."""
        form = self.form
        root = picture_of(form.width, form.height)
        named = {"id": "picture", "role": "img", "aria-labelledby": "picture-name"}
        root.attrib.update({**named, "viewBox": f"0 0 {form.width} {form.height}"})
        name = ET.SubElement(root, f"{{{SVG}}}title", {"id": "picture-name"})
        rows = f"a row for each reservation and a column for each {'minor cycle' if form.is_timed else 'event'}"
        name.text = f"Timeline of {self.title}, {rows}. The table of all events says the same in words."
        add_cursor(root, form, {"id": "cursor"})
        for row in form.labels:
            form.add_label(root, row)
            form.add_row(root, row)
        add_veil(root, {"class": "below"})
        add_veil(root, {"id": "veil"})
        return ET.tostring(root, encoding="unicode")

    def labels(self) -> str:
        """The labels of the rows once more, which stay in sight while the picture is scrolled."""
        root = picture_of(self.form.left, self.form.height)
        for row in self.form.labels:
            self.form.add_label(root, row)
        add_veil(root, {"class": "below"})
        return ET.tostring(root, encoding="unicode")

    def heads(self) -> str:
        """The rows above that of the machine once more, which stay in sight while the others are scrolled."""
        root = picture_of(self.form.width, self.head_height())
        add_cursor(root, self.form, {})
        for row in (EVENTS, KINDS):
            self.form.add_row(root, row)
        return ET.tostring(root, encoding="unicode")

    def corner(self) -> str:
        """The labels of these two rows, which stay in sight in both directions."""
        root = picture_of(self.form.left, self.head_height())
        for row in (EVENTS, KINDS):
            self.form.add_label(root, row)
        return ET.tostring(root, encoding="unicode")

    def head_height(self) -> int:
        """How high these two rows are together."""
        return self.form.line_of(KINDS) + HEAD_MARGIN


def data_of(page: Page) -> Any:
    """What the script of a page reads, by the page's text."""
    return json.loads(DATA.findall(page.text())[0])


def read(name: str) -> str:
    """What a file beside this one has."""
    return (FOLDER / name).read_text(encoding="utf-8")


def add_cursor(root: ET.Element, form: Form, more: Mapping[str, str]) -> None:
    """Adds the cursor of a drawing to a picture. The script puts it at a column."""
    size = {"class": "cursor", "y": "3", "width": str(form.column), "height": str(form.height - 4), "rx": "4"}
    ET.SubElement(root, f"{{{SVG}}}rect", {**more, **size})


def add_veil(root: ET.Element, more: Mapping[str, str]) -> None:
    """Adds what the script covers a part of a picture with, while its answers are hidden."""
    ET.SubElement(root, f"{{{SVG}}}rect", {**more, "width": "0", "height": "0", "fill": "white"})


def marked_up(text: str) -> str:
    """A text of a page in Markdown as sentences in HTML: what stands in backquotes is code."""
    return re.sub(r"`([^`]*)`", r"<code>\1</code>", html.escape(sentence(text)))


def picture_style() -> str:
    """The rules by which the picture has the page's colours, light or dark."""
    bars = "".join(f'svg rect[fill="{colour}"] {{ fill: var(--{name}); }}\n' for colour, name in COLOUR_NAMES.items())
    return bars + f'svg text[fill="{REFUSED}"] {{ fill: var(--refused); }}\n'


def panel_frame(values: Mapping[str, str]) -> str:
    """The frame of the panel, with a row for each of these values. panel.js fills it."""
    parts = {part: table_of(part) for part in HEADS}
    return Template(read("panel.html")).substitute(banks=bank_cells(), values=tables_of_values(values), **parts)


def table_of(part: str) -> str:
    """The table of a part of the panel, with an empty row for each that it has room for."""
    heads = "".join(f'<th scope="col">{head}</th>' for head in HEADS[part])
    rows = "".join(
        f'<tr id="{part}-{key}"><th scope="row">{label}</th><td></td><td></td><td></td></tr>\n'
        for key, label in ROOM[part].items()
    )
    table = f'<table class="part"><thead><tr>{heads}</tr></thead>\n<tbody>\n{rows}</tbody></table>'
    title = f'<h3 id="title-{part}">{TITLES[part]}</h3>'
    return f'<section class="card {part}" aria-labelledby="title-{part}">{title}\n{table}</section>\n'


def tables_of_values(values: Mapping[str, str]) -> str:
    """The tables of the registers of each kind and of the words that the deck shows, with the values at boot."""
    words = [name for name in values if name not in REGISTERS]
    parts = [("Register", [name for name in REGISTERS if name[0] == kind], kind) for kind in "XAB"]
    parts += [("Word", words, "M")] if words else []
    return "".join(table_of_values(head, names, kind, values) for head, names, kind in parts)


def table_of_values(head: str, names: Iterable[str], kind: str, values: Mapping[str, str]) -> str:
    heads = "".join(f'<th scope="col">{it}</th>' for it in (head, "Octal", "Number"))
    rows = "".join(
        f'<tr id="values-{name}"><th scope="row">{name}</th><td>{values[name]}</td><td>{number_of(values[name])}</td>'
        "</tr>\n" for name in names
    )
    return f'<table class="kind-{kind}"><thead><tr>{heads}</tr></thead>\n<tbody>\n{rows}</tbody></table>\n'


def bank_cells() -> str:
    return "".join(f'<li id="banks-{key}">{label}</li>' for key, label in ROOM["banks"].items())


def legend_of(line: str) -> str:
    """A line that says what some marks mean. It has the bars' colours where the text has three of their letters."""
    said = html.escape(line)
    for gap, colour in COLOURS.items():
        said = said.replace(3 * gap, f'<span class="bar" style="background: var(--{COLOUR_NAMES[colour]})"></span>')
    return f"<li>{said.replace('   ', ' &#xB7; ')}</li>\n"


def row_of(n: int, step: Mapping[str, Any], told: str) -> str:
    """The row of the event n, from 0, in the table of all events."""
    event, answer = (html.escape(step[name]) for name in ("event", "answer"))
    kind = ' class="refused"' if step["refused"] else ""
    return (
        f'<tr id="event-{n + 1}"{kind}><th scope="row"><a href="#event-{n + 1}">{n + 1}</a></th>'
        f"<td><code>{event}</code></td><td><code>{answer}</code></td><td>{html.escape(told)}</td></tr>\n"
    )

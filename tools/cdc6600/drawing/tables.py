"""The tables of a page that stand for a whole session."""

import html
from typing import Iterable, Sequence

from cdc6600.shared.telling import sentence
from cdc6600.timing.reservations import BY_CYCLE, BY_EVENT, HEADS, Row
from cdc6600.timing.totals import Totals
from cdc6600.timing.waits import CAUSES

from .units import NAMES

# The rows of totals, and the heads of their waits.
COUNTS = {
    "Minor cycles": "cycles", "Instructions": "issued", "Instructions a minor cycle": "rate",
    "Minor cycles without the first exchange": "running",
    "Instructions a minor cycle without the first exchange": "running_rate",
}
WAITS = ("Waits of the issuing position", "Waits of the reservations")


def totals(sessions: Sequence[Totals], names: Iterable[str]) -> str:
    """The table of the totals of sessions, with a column for each."""
    rows: list[tuple[str, list[object]]] = []
    rows += [(name, [getattr(it, field) for it in sessions]) for name, field in COUNTS.items()]
    for at, head in enumerate(WAITS):
        waits = [it.waits[at] for it in sessions]
        rows.append((head, [it.total() for it in waits]))
        rows += [(f"· {CAUSES[code]}", [it[code] for it in waits]) for code in CAUSES if any(it[code] for it in waits)]
    heads = "".join(f'<th scope="col">{name}</th>' for name in ["What", *names])
    body = "".join(f'<tr><th scope="row">{html.escape(name)}</th>{cells(values)}</tr>\n' for name, values in rows)
    return (
        f'<table class="compared">\n<thead><tr>{heads}</tr></thead>\n<tbody>\n{body}</tbody></table>\n'
        '<p class="count">The cycles are those of the file of times. Nothing is said of a real machine.</p>\n'
    )


def cells(values: Iterable[object]) -> str:
    return "".join(f"<td>{html.escape(str(value))}</td>" for value in values)


def card(name: str, title: str, text: str) -> str:
    """A part of a page with a title, which isn't shown while answers are hidden."""
    head = f'<h2 id="title-{name}">{title}</h2>'
    return f'<section class="card answers" aria-labelledby="title-{name}">\n{head}\n{text}</section>\n'


def reservations(found: Iterable[Row], is_timed: bool, name: str = "") -> str:
    """The table of the reservations, in a box that scrolls. A page with several such tables gives each one a name."""
    heads = "".join(f'<th scope="col">{sentence(head)}</th>' for head in HEADS)
    rows = "".join(reservation(row) for row in found)
    said = html.escape(f"The reservations{' of ' * bool(name)}{name}, a table which can be scrolled")
    return (
        f'<p class="count">{BY_CYCLE if is_timed else BY_EVENT}</p>\n'
        f'<div class="wide" tabindex="0" role="group" aria-label="{said}">\n<table class="moments">\n'
        f"<thead><tr>{heads}</tr></thead>\n<tbody>\n{rows}</tbody></table></div>\n"
    )


def reservation(row: Row) -> str:
    """The row of a reservation, whose unit has its name."""
    number, text, unit, *others = row.cells
    return f'<tr><th scope="row">{number}</th>{cells([text, NAMES[unit], *others])}</tr>\n'

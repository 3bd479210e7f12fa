"""Writes a page that compares two schedules of one deck: their pictures one above the other on one axis of minor
cycles, the cycles, the instructions a cycle, and what was waited for."""

import html
from pathlib import Path
from string import Template
from typing import Sequence

from cdc6600.shared.ending import printable
from cdc6600.timing.reservations import rows_of
from cdc6600.timing.times import Times
from cdc6600.timing.totals import Totals
from cdc6600.timing.waits import Account

from .following import Fault, Following
from .forms import Form, UnitForm, start_of
from .page import legend_of, picture_style, read
from .pictures import HELD, pair, units
from .tables import reservations, totals


class Timed:
    """A session with its account, its totals, and its drawings by minor cycles: a row for each reservation, and a row
    for each unit."""

    form: Form
    units: Form

    def __init__(self, following: Following, name: str, times: Times) -> None:
        self.following, self.name = following, name
        self.account = Account(following, times)
        self.totals = Totals(self.account.clock, following.log.text)

    def draw(self, start: list[int]) -> None:
        """Makes the drawings, which begin with these columns."""
        self.form, self.units = (kind(self.following, self.account.cycles, start) for kind in (Form, UnitForm))
        self.form.check_columns()

    def titled(self, picture: str) -> str:
        return f"<h3>{html.escape(self.name)}</h3>\n{picture}"

    def reservations(self) -> str:
        """The table of its reservations, below its name."""
        found = rows_of(self.following, self.account)
        return self.titled(reservations(found, True, self.name))


def titles_of(files: Sequence[str]) -> list[str]:
    """The names of files without their folders and endings, or the files if these are the same."""
    names = [printable(Path(file).stem) for file in files]
    return names if len(set(names)) == len(files) else [printable(file) for file in files]


def arrange(forms: Sequence[Form]) -> None:
    sizes = (max(it.wide for it in forms), max(it.column for it in forms), max(len(it.events) for it in forms))
    for form in forms:
        form.arrange(*sizes)


class Comparison:
    """The page of two sessions that were followed, by the names of their files.

    Raises Fault where they aren't of one deck."""

    def __init__(self, followed: Sequence[Following], names: Sequence[str], times: Times) -> None:
        one, other = followed
        if one.session.deck != other.session.deck:
            raise Fault(names[1], f"its deck isn't that of {names[0]}")
        self.sessions = [Timed(following, name, times) for following, name in zip(followed, titles_of(names))]
        start = start_of([(it.following, it.account.cycles) for it in self.sessions])
        for it in self.sessions:
            it.draw(start)
        for name in ("form", "units"):
            arrange([getattr(it, name) for it in self.sessions])

    def text(self) -> str:
        names = [html.escape(it.name) for it in self.sessions]
        said = "Timeline of {}, a column for each minor cycle"
        pictures = "".join(it.titled(pair(it.form, said.format(it.name))) for it in self.sessions)
        held = "".join(it.titled(units(it.units, it.name)) for it in self.sessions)
        tables = "".join(it.reservations() for it in self.sessions)
        return Template(read("comparison.html")).substitute(
            style=read("page.css") + picture_style(), title=" and ".join(names), pictures=pictures, units=held,
            totals=totals([it.totals for it in self.sessions], names), held_by_units=HELD, reservations=tables,
            legends="".join(map(legend_of, self.sessions[0].form.legends)),
        )

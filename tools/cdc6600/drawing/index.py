"""Writes the page that leads to the pages of several sessions."""

import html
import re
from dataclasses import dataclass
from string import Template
from typing import Sequence
from urllib.parse import quote

from .following import Following
from .page import marked_up, read

# What the page of a session begins its links with, and what the page that leads to all of them has.
NAVIGATION = '<nav class="links" aria-label="Sessions"><a href="index.html">All sessions</a>'
TITLE = "<title>Sessions of the Control Data 6600</title>"


@dataclass(frozen=True)
class Entry:
    """A session with its page: its name, what it shows, and how it was followed."""

    name: str
    shown: str
    following: Following

    @property
    def sentence(self) -> str:
        """The first sentence of what it shows."""
        return re.split(r"\.(?= [A-Z`])", self.shown, maxsplit=1)[0]

    @property
    def refusals(self) -> list[str]:
        """The numbers of the refusals that come in it, each once."""
        marks = {mark for mark in self.following.marks.values() if re.fullmatch(r"E[0-9]+", mark)}
        return sorted(marks, key=lambda mark: int(mark[1:]))

    def row(self) -> str:
        """Its item in the list."""
        counts = f"{self.following.columns} events, {len(self.following.rows) - 1} reservations"
        says = f"<p>{marked_up(self.sentence)}.</p>" if self.shown else ""
        refused = f", refused {', '.join(self.refusals)}" if self.refusals else ""
        return (
            f'<li class="card"><h2>{link(self.name, self.name)}</h2>'
            f'{says}<p class="count">{counts}{refused}</p></li>\n'
        )


def link(name: str, said: str) -> str:
    """A link to the page of a session."""
    return f'<a href="{quote(name)}.html">{html.escape(said)}</a>'


def index(entries: Sequence[Entry]) -> str:
    items = "".join(entry.row() for entry in entries)
    return Template(read("index.html")).substitute(style=read("page.css"), items=items, count=len(entries))


def links(names: Sequence[str], name: str) -> str:
    """What leads from the page of a session to the others."""
    at = names.index(name)
    around = [("Before", names[at - 1]) if at else None, ("After", names[at + 1]) if at + 1 < len(names) else None]
    found = "".join(f"{link(it[1], f'{it[0]}: {it[1]}')}\n" for it in around if it)
    return f"{NAVIGATION}\n{found}</nav>\n"

"""Writes a page for each session into a folder, as `tools/timeline --html` does, and a page index.html that leads to
them. If none is named, they are the sessions of decks/sessions, and the pages say what each one shows, as
decks/README.md has it. A file that is a deck without a schedule gets the schedule of `tools/schedule`, and its page has
a column for each minor cycle. Only pages of this tool are written over.

The status is 0, or 1 for bad input, or 2 if the command line is refused. CDC6600 may name the program to ask.
"""

from argparse import Namespace
from dataclasses import dataclass
from pathlib import Path
from typing import Mapping, Sequence

from cdc6600.drawing.following import Fault, Following, Session, text_of
from cdc6600.drawing.forms import check_columns
from cdc6600.drawing.index import NAVIGATION, TITLE, Entry, index, links
from cdc6600.drawing.listing import Listing
from cdc6600.drawing.page import Page
from cdc6600.shared.decks import sessions, shown_by_sessions
from cdc6600.shared.ending import Parser, ended
from cdc6600.shared.program import Program
from cdc6600.shared.reading import read_file
from cdc6600.shared.writing import put, why_not_written
from cdc6600.timing.scheduling import Schedule
from cdc6600.timing.times import Times, read_times

INDEX = "index"


def arguments() -> Namespace:
    parser = Parser(__doc__)
    parser.add_argument("folder", metavar="FOLDER", help="where the pages are written; it is made if it isn't there")
    parser.add_argument("files", metavar="SESSION", nargs="*", default=[],
                        help="a session, or a deck or source program NAME.source to be scheduled")
    parser.add_argument("--times", metavar="FILE",
                        help="the file of times, tools/cdc6600/timing/thornton.times by default")
    return parser.parse_args()


def is_page(file: str | Path) -> bool:
    text = read_file(file)
    return any(mark.encode() in text for mark in (NAVIGATION, TITLE))


def write(folder: Path, pages: Mapping[str, str]) -> None:
    """Writes pages, by their names. None is written if one of them would be written over another file."""
    try:
        folder.mkdir(parents=True, exist_ok=True)
        for name in pages:
            why_not = why_not_written(folder / name, is_page)
            if why_not:
                raise Fault(folder / name, why_not)
        for name, text in pages.items():
            put(folder / name, text.encode())
    except OSError as fault:
        raise Fault(fault.filename or folder, fault.strerror) from None


@dataclass(frozen=True)
class Shown:
    """A session of a page: its name, what it shows, how it was followed, and the times if a column is a minor cycle."""

    name: str
    says: str
    following: Following
    times: Times | None = None


def followed(program: Program, file: str, text: str) -> Following:
    session = Session(file, text)
    check_columns(file, len(session.events), "events")
    following = Following(program, session, None, None)
    following.follow()
    return following


def stored(program: Program) -> list[Shown]:
    says = shown_by_sessions()
    return [Shown(it.name, says.get(it.name, ""), followed(program, str(it), it.text.decode("latin-1")))
            for it in sessions()]


def named(program: Program, file: str, times: Times) -> Shown:
    """The session in a file, or the one that a deck in a file is scheduled to."""
    session = Session(file, text_of(file))
    if session.events:
        return Shown(Path(file).stem, "", followed(program, file, session.text))
    schedule = Schedule(program, session, times)
    schedule.make()
    deck = session.text.split("\n")[: session.deck_end]
    following = followed(program, file, "".join(f"{line}\n" for line in [*deck, *schedule.events, "end"]))
    following.listing = Listing(file)
    return Shown(Path(file).stem, f"`{Path(file).name}`, scheduled by `tools/schedule`", following, times)


def check_names(files: Sequence[str]) -> None:
    """Raises Fault where two files would have one page, or a page that leads to the others."""
    names = [Path(file).stem for file in files]
    for at, name in enumerate(names):
        if name == INDEX or name in names[:at]:
            raise Fault(files[at], f"another page is {name}.html")


def work() -> int:
    given, program = arguments(), Program()
    check_names(given.files)
    folder, times = Path(given.folder), read_times(given.times)
    found = [named(program, file, times) for file in given.files] if given.files else stored(program)
    names = [it.name for it in found]
    pages = {f"{it.name}.html": Page(it.following, it.name, it.says, links(names, it.name), it.times).text()
             for it in found}
    pages[f"{INDEX}.html"] = index([Entry(it.name, it.says, it.following) for it in found])
    write(folder, pages)
    return 0


def main() -> int:
    return ended("tools/gallery", work, Fault)

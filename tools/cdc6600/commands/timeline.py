"""Draws what a session does, a row for each reservation and a column for each event of its schedule: as text, with
--svg as a picture, or with --html as a page that steps through the events. The answers are those of `cdc6600 events`
where no file of answers is given. With --cycles a column is a minor cycle by the file of times. With --compare the page
of two schedules of one deck is written, by their minor cycles; SECOND is then the other session.

With --table the reservations are a table: when each one was issued, read, finished, stored, and if it made a reference,
when that was accepted and returned; and which refusal held it last. A moment is the number of an event, or with
--cycles a minor cycle, and then the last column has the longest wait. With --json the table is a list of objects:

  reservation, instruction, unit                    its number, and the texts of the table
  issue, read, finish, store, accepted, returned    a number, or null if the session has no such event
  held                                              null, or an object with the fields below

  event     the kind of the event that was held: issue, read, store, accept, return
  rule      the number of the refusal, as "E9", or null if only the order of the schedule delayed the event
  reason    the answer to the event, as "E9 operand awaited X1", or "order of the schedule"
  by        the numbers of the reservations that held it
  cycles    the minor cycles of this hold, or null without --cycles

docs/use/tools.md explains the drawing; drawing/following.py follows the events, drawing/forms.py draws the rows,
drawing/page.py writes the page, and timing/reservations.py has the table.

The status is 0, or 1 for bad input, or 2 if the command line is refused. CDC6600 may name the program to ask.
"""

import sys
from argparse import Namespace
from pathlib import Path

from cdc6600.drawing.comparison import Comparison
from cdc6600.drawing.following import Fault, Following, Session, text_of
from cdc6600.drawing.forms import Form, check_columns
from cdc6600.drawing.listing import listing_of
from cdc6600.drawing.page import Page
from cdc6600.shared.ending import Parser, ended, printable, set_errors
from cdc6600.shared.program import Program
from cdc6600.timing.clock import clocked
from cdc6600.timing.reservations import as_json, as_text, rows_of
from cdc6600.timing.times import Times, read_times
from cdc6600.timing.waits import Account


def arguments() -> Namespace:
    parser = Parser(__doc__)
    form = parser.add_mutually_exclusive_group()
    form.add_argument("--svg", action="store_true", help="draw a picture")
    form.add_argument("--html", action="store_true", help="write a page that steps through the events")
    form.add_argument("--table", action="store_true", help="print the table of the reservations")
    parser.add_argument("--json", action="store_true", help="with --table, print it as JSON")
    parser.add_argument("--cycles", action="store_true", help="a column for each minor cycle instead of each event")
    parser.add_argument("--times", metavar="FILE",
                        help="the file of times, tools/cdc6600/timing/thornton.times by default")
    parser.add_argument("--source", metavar="FILE",
                        help="with --html, the source program of the deck, whose lines the page shows")
    parser.add_argument("--compare", action="store_true", help="with --html, compare the session with a second one")
    parser.add_argument("session", metavar="SESSION", help="a deck with a schedule after it")
    parser.add_argument("second", metavar="SECOND", nargs="?",
                        help="a file with what `events` prints for it; with --compare, another session of its deck")
    given = parser.parse_args()
    if given.times and not (given.cycles or given.compare):
        parser.error("--times goes with --cycles or --compare")
    if given.compare and not (given.html and given.second):
        parser.error("--compare takes --html and two sessions")
    if given.source and (given.compare or not given.html):
        parser.error("--source goes with --html and one session")
    if given.json and not given.table:
        parser.error("--json goes with --table")
    return given


def followed(program: Program, file: str, named: str | None = None, is_picture: bool = True) -> Following:
    """A session that is followed to its end, with the answers in a file if one is named."""
    session = Session(file, text_of(file))
    if is_picture:
        check_columns(file, len(session.events), "events")
    following = Following(program, session, named, text_of(named) if named else None)
    following.follow()
    return following


def page_of(given: Namespace, program: Program, times: Times | None) -> str:
    if times and given.compare:
        files = (given.session, given.second)
        return Comparison([followed(program, file) for file in files], files, times).text()
    following = followed(program, given.session, given.second)
    if given.source:
        following.listing = listing_of(given.source, following.session)
    return Page(following, printable(Path(given.session).stem), times=times).text()


def table_of(following: Following, given: Namespace, times: Times | None) -> str:
    found = list(rows_of(following, Account(following, times) if times else None))
    return as_json(found) if given.json else as_text(found, bool(times))


def work() -> int:
    given, program = arguments(), Program()
    times = read_times(given.times) if given.cycles or given.compare else None
    if given.table:
        sys.stdout.write(table_of(followed(program, given.session, given.second, False), given, times))
    elif given.html:
        set_errors(sys.stdout, "replace", "utf-8")
        sys.stdout.write(page_of(given, program, times))
    else:
        following = followed(program, given.session, given.second, given.svg)
        form = Form(following, clocked(following, times) if times else None)
        sys.stdout.writelines([form.picture()] if given.svg else (f"{line}\n" for line in form.lines()))
    return 0


def main() -> int:
    return ended("tools/timeline", work, Fault)

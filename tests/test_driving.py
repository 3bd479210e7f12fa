"""Tries the page that drives a machine in browsers without a window: in Chromium and in Firefox, as far as these are
installed.

- The machine: after each event of each session, and after events that are drawn, with refusals, peripheral accesses and
  events that are taken back, the answer, its words, the panel and the values are those of the pages of sessions, and
  the table of the reservations is that of tools/timeline --table. The minor cycle of each event and the total are those
  of tools/timeline --cycles, and they are shown if they are asked for.
- The assembler: each source program of decks/source and each that tools/check assembler tries has the deck,
  the listing and the faults of tools/assemble.
- The page: it asks for nothing but itself, scrolls in no window but in its boxes, can be read in light and dark, has
  nothing too small to click, keeps the focus of the keyboard, has a name for each control, marks the line of a refused
  program, goes on until the end that the user names, and opens its own links and sessions. After events that are made
  one by one, with events that are taken back, it shows the same as after the same events at once. On paper it has what
  was made, and no controls.

CDC6600_MODULE may name a folder that tools/build-module has filled; else the check fills one. A browser that isn't
installed is left out, and that is told. Chromium needs `chromedriver` too; Firefox is `firefox-esr`.

Run it after a change of the crate `embedding`, of cdc6600.mjs, of tools/cdc6600/driving, of the panel or the sentences
of tools/cdc6600/drawing, of tools/cdc6600/assembling, or of a session.
"""

from __future__ import annotations

import base64
import re
from functools import cache
from pathlib import Path
from typing import Any, Iterator

import pytest
from browsing import SCHEMES, WIDE, View, opened, size_of
from running import Runner, name_of

from cdc6600.assembling.output import deck_of, listing_of
from cdc6600.assembling.sources import read_source
from cdc6600.checks.sources import all_sources
from cdc6600.checks.web_driver import Browser
from cdc6600.commands.gallery import followed
from cdc6600.drawing.following import ENDS
from cdc6600.drawing.page import Page
from cdc6600.driving.driving import NAME
from cdc6600.shared.decks import Session, deck, session, sessions
from cdc6600.shared.program import Program
from cdc6600.shared.waiting import wait_until
from cdc6600.timing.clock import clocked
from cdc6600.timing.reservations import rows_of
from cdc6600.timing.times import read_times
from cdc6600.timing.waits import Account

WINDOWS = (WIDE, (640, 450), (400, 740), (320, 640))
# The decks of the walks, and how many events are drawn for each.
DRAWN = ("loop", "subroutine", "store-into-code", "load-store", "short-field", "address-fault", "divide")
EVENTS = 60
# How many events are drawn to be made by their buttons: more than the timeline has at first. With minor cycles they are
# fewer, and the timeline has all of them.
PLAYED_EVENTS, TIMED_EVENTS = 90, 40
PARTS = ("event", "answer", "words", "refused", "holds", "values", "machine", "units", "places", "channels", "banks",
         "registers")
CONTROLS = {
    "#example": ("combobox", "Example"), "#text": ("textbox", "Deck, session or source program"),
    "#start": ("button", "Start"), "#end": ("combobox", "Go on until"), "#what": ("textbox", "A label, a word"),
    "#typed": ("textbox", "Another event"), "#next": ("button", "Next"), "#undo": ("button", "Undo"),
    "#step": ("region", "Event"), "#panel": ("region", "The machine"), "#picture": ("img", "A row for each"),
    "#scroll": ("group", "The timeline"), "#minor-cycles": ("checkbox", "Minor cycles"), "main": ("main", ""),
}
# Decks that go on until something: what, and how many events lead there with the last one, or the refusal. The numbers
# are those of the same commands of tools/operate, but for the first one, which it doesn't have.
WAYS = (
    ("loop", "at", "1", "7 issue"), ("loop", "changes", "X6", "20 store longadd"), ("loop", "refused", "", "E7"),
    ("load-store", "changes", "121", "21 accept 0"),
)
# Keys at an element: the name of what has the focus then, and how many more events there are than at first.
KEYS = (("#start", "Tab", "run", 0), ("#undo", "Enter", "undo", -1), ("#redo", "Enter", "redo", 0),
        ("#may button", "Enter", "", 1), (":focus", "Enter", "", 2))
# Examples with the events that are made, and how the instruction begins that the listing marks as next.
LISTED = (("total.source", 2, "START  SB1 B0+1"), ("two-adds-code.deck", 2, "SX1 B0+5"),
          ("two-adds-code.deck", 3, "SX2 B0+3"))
# The name of a source program, which begins each line that tells a fault.
SOURCE = "source"
REFUSED = b"core 256\nat 100\ncode SQ1 B0+10\nstart 40\nend\n"


def coded(text: bytes) -> str:
    """Bytes in base 64, as scripts take and return them."""
    return base64.b64encode(text).decode()


@cache
def wanted_of(program: Runner, name: str, text: str) -> tuple[list[dict[str, Any]], list[list[str]], int]:
    """What the page should show of a session: each step with its minor cycle, the table of the reservations, and the
    minor cycles in all."""
    following = followed(Program(program.path), name, text)
    cycles = clocked(following, read_times())
    steps = [{**{part: step[part] for part in PARTS}, "cycle": cycle}
             for step, cycle in zip(Page(following, name).steps(), cycles, strict=True)]
    return steps, [row.cells for row in rows_of(following)], cycles[-1]


class DrivingPage(View):
    """The page in a browser."""

    def __init__(self, browser: Browser, page: Path) -> None:
        super().__init__(browser, page, "driving.js")

    def open(self, fragment: str = "") -> None:
        """Opens the page anew, and waits until the machine is there."""
        super().open(fragment)
        wait_until(lambda: bool(self.see("isReady")), "the page to be ready")

    def start(self, text: bytes) -> None:
        """Starts a program in the page."""
        self.see("begin", coded(text))

    def play(self, count: int) -> None:
        """Starts a deck, and makes events that are drawn, by their buttons."""
        self.start(deck("loop").text)
        self.see("play", 1, count)

    def walk(self, seed: int) -> None:
        """Starts a deck, and makes events that are drawn, with refusals and events that are taken back."""
        self.start(deck(DRAWN[seed]).text)
        self.see("walk", seed, EVENTS)

    def check_made(self, program: Runner, name: str) -> str:
        """Compares the session that the page has made, and all that it shows of it, with the pages of sessions; the
        text of the session."""
        text, steps, *others = self.see("made")
        wanted = wanted_of(program, name, text)
        assert [steps, *others] == [wanted[0][: len(steps)], *wanted[1:]]
        return str(text)


@pytest.fixture(name="page")
def opened_page(browser: Browser, modules: Path) -> Iterator[DrivingPage]:
    with opened(DrivingPage(browser, modules / NAME)) as page:
        yield page


@pytest.mark.parametrize("it", sessions(), ids=name_of)
def test_session(page: DrivingPage, program: Runner, it: Session) -> None:
    assert page.see("called", "events", coded(it.text)) == [0, coded(it.answers or b""), ""]
    page.start(it.text)
    made, events = page.check_made(program, str(it)), [line for line in it.schedule if line not in ENDS]
    assert made.split("\nend\n")[1].split("\n")[: len(events)] == events


@pytest.mark.parametrize("seed", range(len(DRAWN)), ids=DRAWN)
def test_walk(page: DrivingPage, program: Runner, seed: int) -> None:
    page.walk(seed)
    page.check_made(program, f"the walk {seed} of {DRAWN[seed]}")


def assembled(text: str) -> list[Any]:
    """What tools/assemble makes of a source program: its faults, or its deck and its listing."""
    program, settings = read_source(SOURCE, text.encode())
    if program.faults.lines:
        return [program.faults.lines, "", []]
    return [[], "".join(f"{line}\n" for line in deck_of(program, settings)), listing_of(program)]


def test_sources(page: DrivingPage) -> None:
    given = [*all_sources()]
    assert page.see("assembled", given, SOURCE) == [assembled(it) for it in given]


@pytest.mark.parametrize("scheme", SCHEMES)
@pytest.mark.parametrize("is_timed", (False, True), ids=("events", "cycles"))
def test_look(page: DrivingPage, is_timed: bool, scheme: str) -> None:
    """The widest window is the first one. Chromium measures a heading that is out of sight by the window before, if it
    is the first that is measured."""
    if is_timed:
        page.play(TIMED_EVENTS)
        page.see("showRows")
        page.see("timed")
    else:
        page.walk(len(DRAWN) - 1)
    for window in WINDOWS:
        page.browser.show_as(*window, scheme)
        assert page.see("wide") + page.see("dim") + page.see("small") == [], size_of(window)


def test_keys(page: DrivingPage) -> None:
    """They lead to the next control, take an event back and make it again, and make two by their buttons, of which one
    keeps the focus."""
    page.start(session("conflicts").text)
    count = len(page.see("made")[1])
    for focused, key, wanted, more in KEYS:
        page.see("focusOn", focused)
        page.browser.press(key)
        assert page.see("focus") == ["BUTTON", wanted, count + more], f"{key} at {focused}"


def test_labels(page: DrivingPage) -> None:
    page.start(session("conflicts").text)
    page.check_labels(CONTROLS)


def test_refused_deck(page: DrivingPage) -> None:
    page.start(REFUSED)
    assert page.see("fault") == ["E20 line 3: instruction", "code SQ1 B0+10"]


def test_link(page: DrivingPage) -> None:
    page.start(session("conflicts").text)
    made = page.see("made")
    page.open(page.see("fragment"))
    assert page.see("made") == made


def test_kept_session(page: DrivingPage) -> None:
    page.start(session("conflicts").text)
    made, (text, name) = page.see("made"), page.see("kept")
    page.start(REFUSED)
    page.see("openFile", text, name)
    wait_until(lambda: bool(page.see("text", "about") == name), f"{name} to be opened")
    assert page.see("made") == made


@pytest.mark.parametrize("name, kind, what, wanted", WAYS)
def test_going_on(page: DrivingPage, name: str, kind: str, what: str, wanted: str) -> None:
    page.start(re.sub(rb"(?m)^show .*\n", b"", deck(name).text))
    assert page.see("goOn", kind, what) == wanted


def test_drawing(page: DrivingPage) -> None:
    """The page shows the same after events that are made one by one, all at once, and again."""
    page.play(PLAYED_EVENTS)
    assert page.see("isLastInSight")
    seen = page.see("seen")
    page.open(page.see("fragment"))
    assert page.see("seen") == seen
    count = page.see("again")
    assert page.see("seen") == seen
    page.browser.show_as(*WIDE, media="print")
    assert page.see("printed") == {"controls": [], "missing": [], "events": count}
    page.browser.show_as(*WIDE)
    before, after = page.see("showColumns")
    assert before < after == count


def test_minor_cycles(page: DrivingPage, program: Runner) -> None:
    page.play(TIMED_EVENTS)
    page.see("showRows")
    seen, text = page.see("seen"), page.see("made")[0]
    following = followed(Program(program.path), "the cycles of a loop", text)
    account = Account(following, read_times())
    *cycles, total = [str(it) for it in account.cycles]
    rows = [row.cells[3:-1] for row in rows_of(following, account)]
    assert page.see("timed") == [cycles, cycles, rows, total]
    page.see("timed")
    assert page.see("seen") == seen


@pytest.mark.parametrize("name, count, wanted", LISTED)
def test_listing(page: DrivingPage, name: str, count: int, wanted: str) -> None:
    assert page.see("listed", name, count).startswith(wanted)

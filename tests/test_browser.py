"""Tries the pages of tools/gallery in browsers without a window: in Chromium and in Firefox, as far as these are
installed.

    tools/check browser                      tries each page
    tools/check browser --pictures FOLDER    takes pictures of some of them in Chromium as well, as PNG files, and those
                                             of docs/use

- Each page is gone through by the keyboard, by its buttons, by its slider and with hidden answers. At each step it
  shows the event of the session, the answer of `cdc6600 events`, at the end the dump, and the words, the panel and the
  values that tools/cdc6600/drawing works out. The cursor is at the number of the event in the picture.
- A page asks for nothing but itself. At a width of 360 pixels, and with everything twice as large, nothing but the
  picture scrolls sideways. The picture and the panel are in sight while one steps, and everything that can be clicked
  has 24 pixels at least. The address names the step, and opens the page there. In light and dark all text differs
  enough from the colour behind it. Each control has a role and a name for a screen reader.
- Without scripts, and on paper, there are the picture and the table of all events, and no controls.
- The page that leads to the others has a link to each. The page of tools/explore for the deck of the first run is tried
  by keys and a button, the page of a schedule by its minor cycles. These and the page of two schedules are tried in
  width and contrast.

A browser that isn't installed is left out, and that is told. Chromium needs `chromedriver` too; Firefox is
`firefox-esr`.

Run it after a change of `tools/cdc6600/drawing`, of `tools/cdc6600/timing/graph.py`, of a session, or of what is
answered.
"""

from __future__ import annotations

import json
from functools import cache
from pathlib import Path
from typing import Any, Iterator

import pytest
from browsing import NARROW, SCHEMES, WIDE, View, Window, opened, size_of
from running import Runner, bytes_of, called, name_of, text_of

from cdc6600.checks.chromium import Chromium
from cdc6600.checks.web_driver import Browser
from cdc6600.commands.gallery import followed
from cdc6600.drawing.following import ENDS
from cdc6600.drawing.page import DATA, Page
from cdc6600.drawing.values import number_of
from cdc6600.shared.decks import FIRST, FOLDER, Session, sessions
from cdc6600.shared.program import Program
from cdc6600.shared.waiting import wait_until

# The windows as they are with everything twice as large, the narrow one 400 pixels wide.
ENLARGED = ((640, 450), (200, 370))
# The windows in which the picture and the panel are in sight while one steps.
STEPPING = (WIDE, (400, 740))
# The names of the keys and of the buttons that lead to the first event, back, on and to the last event.
KEYS, BUTTONS = ("Home", "Left", "Right", "End"), ("#first", "#back", "#next", "#last")
CONTROLS = {
    "#first": ("button", "First"), "#back": ("button", "Back"), "#next": ("button", "Next"),
    "#last": ("button", "Last"), "#slider": ("slider", "Event"), "header": ("banner", ""),
    "#hiding": ("checkbox", "Hide each answer"), "main": ("main", ""), "#step": ("region", "Event 1"),
    ".controls": ("region", "Steps"),
}
PARTS = ("words", "units", "places", "channels", "registers", "machine")
# The pages that aren't of one session.
OTHERS = ("index", "graph", "cycles", "compared")
# The windows and schemes of pictures, and how much larger than a pixel of the page a pixel is.
PICTURES = {
    "wide-light": (1280, 1060, "light", 1), "wide-dark": (1280, 1060, "dark", 1),
    "narrow-light": (390, 1180, "light", 2), "narrow-dark": (390, 1180, "dark", 2),
}
# The pages of pictures, each at an event.
PICTURED = {"index": 1, "conflicts": 7, "sum-less-one": 24, "full-hopper": 22, "compared": 1}
# The pictures that docs/use has: the page with a part of it, and the window of each. They are stored with fewer colors,
# by `convert FILE -strip +dither -colors 128 -define png:compression-level=9 PNG8:FILE` of ImageMagick.
OF_DOCS = {
    "page": ("mid-word-exchange.html#event-19", (1280, 1150, "light", 1)),
    "page-narrow": ("mid-word-exchange.html#event-19", (390, 1100, "dark", 1.25)),
    "compared": ("compared.html#title-pictures", (1280, 780, "light", 1)),
}


def step_of(page: Page, n: int, step: dict[str, Any], event: str, answer: str) -> dict[str, Any]:
    """What the step n of a page should show, from 0, but for the end."""
    shown, before = page.values[n + 1], page.values[n]
    return {
        **{part: step[part] for part in PARTS}, "banks": list(step["banks"]), "number": str(n + 1), "event": event,
        "answer": "the dump" if event in ENDS and answer != "NOT DRAINED" else answer, "column": str(n + 1),
        "verdict": "Refused" if answer.startswith("E") else "Made", "live": "polite", "row": f"row-{n + 1}",
        "values": {name: [digits, number_of(digits), digits != before[name]] for name, digits in shown.items()},
        "ending": "",
    }


@cache
def steps_of(program: Runner, it: Session) -> list[dict[str, Any]]:
    """What each step of a session's page should show."""
    following = followed(Program(program.path), str(it), text_of(it.text))
    page, answers = Page(following, it.name), program("events", given=it.text).lines
    steps = [step_of(page, n, *of_step) for n, of_step in enumerate(zip(page.steps(), it.schedule, answers))]
    steps[-1]["ending"] = "\n".join(answers[len(steps) - 1 :])
    return steps


class SessionPage(View):
    """The page of a session in a browser, with what its steps should show."""

    def __init__(self, browser: Browser, folder: Path, name: str, steps: list[dict[str, Any]]) -> None:
        super().__init__(browser, folder / f"{name}.html")
        self.name, self.steps, self.last = name, steps, len(steps) - 1

    def check(self, n: int) -> None:
        """Compares what is shown with what the step n should show, from 0."""
        assert self.see("shown") == self.steps[n]

    def check_still(self) -> None:
        """Checks that there are the picture and the table, and no controls."""
        events = [step["event"] for step in self.steps]
        assert self.see("still") == {"controls": False, "ending": True, "picture": True, "events": events}


@pytest.fixture(scope="session")
def gallery(program: Runner, tmp_path_factory: pytest.TempPathFactory) -> Path:
    """The folder of the pages: those of tools/gallery, that of tools/explore, and for a program with a loop that of a
    schedule by minor cycles and that of two schedules."""
    folder = tmp_path_factory.mktemp("gallery")

    def made(name: str, tool: str, *words: str | Path) -> Path:
        came = called(f"tools/{tool}", *words)
        assert (came.status, came.told) == (0, "")
        (folder / name).write_bytes(bytes_of(came.printed))
        return folder / name

    assert called("tools/gallery", folder).status == 0
    made("graph.html", "explore", "--html", FIRST)
    deck = made("total.deck", "assemble", FOLDER / "source/total.source")
    timed = made("timed.session", "schedule", deck)
    slow = made("one-by-one.session", "schedule", "--policy", "program-order", deck)
    made("compared.html", "timeline", "--html", "--compare", slow, timed)
    made("cycles.html", "timeline", "--html", "--cycles", timed)
    return folder


@pytest.fixture(name="page", params=sessions(), ids=name_of)
def page_of_a_session(
    browser: Browser, gallery: Path, program: Runner, request: pytest.FixtureRequest
) -> Iterator[SessionPage]:
    with opened(SessionPage(browser, gallery, request.param.name, steps_of(program, request.param))) as page:
        yield page


@pytest.fixture(name="view")
def other_page(browser: Browser, gallery: Path, request: pytest.FixtureRequest) -> Iterator[View]:
    """The page of this name."""
    with opened(View(browser, gallery / f"{request.param}.html")) as view:
        yield view


@pytest.fixture
def without_scripts(browser: Browser) -> Iterator[None]:
    """Pages that are opened meanwhile don't run their scripts."""
    browser.use_scripts(False)
    yield
    browser.use_scripts(True)


@pytest.mark.parametrize("way", ("keys", "buttons", "slider"))
def test_steps(page: SessionPage, way: str) -> None:
    if way == "slider":
        page.see("focusOn", "#slider")
    first, back, on, last = BUTTONS if way == "buttons" else KEYS

    def go(where: str) -> None:
        page.click(where) if way == "buttons" else page.browser.press(where)

    go(first)
    for n in range(page.last + 1):
        page.check(n)
        go(on)
    page.check(page.last)
    go(back)
    page.check(max(page.last - 1, 0))
    go(last)
    page.check(page.last)


def test_links(page: SessionPage) -> None:
    """The first one leads to a step, and the second one leaves the page there."""
    n = (page.last + 1) // 2
    for selector in (f"#row-{n + 1} a", ".skip"):
        page.see("follow", selector)
        page.check(n)


def test_hidden_answers(page: SessionPage) -> None:
    page.click("#hiding")
    for n in range(page.last + 1):
        for is_asked in (False, True):
            assert page.see("asked") == [str(n + 1), is_asked, not is_asked, False]
            page.browser.press("Right")
    page.click("#hiding")
    page.check(page.last)


@pytest.mark.parametrize("window", (NARROW, *ENLARGED), ids=size_of)
def test_width(page: SessionPage, window: Window) -> None:
    page.browser.show_as(*window)
    assert page.at_events("wide") == []


@pytest.mark.parametrize("window", STEPPING, ids=size_of)
def test_in_sight(page: SessionPage, window: Window) -> None:
    page.browser.show_as(*window)
    page.see("scrollTo", "#panel")
    assert page.at_events("hidden", "small") == []


@pytest.mark.parametrize("scheme", SCHEMES)
def test_contrast(page: SessionPage, scheme: str) -> None:
    page.browser.show_as(*WIDE, scheme)
    assert page.at_events("dim") == []
    assert page.see("brightness") > 0.7 if scheme == "light" else page.see("brightness") < 0.1


def test_address(page: SessionPage) -> None:
    page.browser.press("Home", "Right")
    named = f"#event-{min(2, page.last + 1)}"
    wait_until(lambda: bool(page.see("address") == named), f"the address {named}")
    n = (page.last + 1) // 2
    page.open(f"#event-{n + 1}")
    page.check(n)
    assert page.see("hidden") == []


def test_labels(page: SessionPage) -> None:
    page.check_labels({**CONTROLS, "#picture": ("img", f"Timeline of {page.name}")})


def test_paper(page: SessionPage) -> None:
    page.browser.press("End")
    page.browser.show_as(*WIDE, media="print")
    page.check_still()


@pytest.mark.usefixtures("without_scripts")
def test_without_scripts(page: SessionPage) -> None:
    page.check_still()


@pytest.mark.parametrize("view", OTHERS, indirect=True)
def test_look(view: View) -> None:
    view.browser.show_as(*NARROW)
    assert view.see("wide") == []
    for scheme in SCHEMES:
        view.browser.show_as(*WIDE, scheme)
        assert view.see("dim") == []


@pytest.mark.parametrize("view", ["index"], indirect=True)
def test_index(view: View) -> None:
    assert view.see("links") == [f"{it.name}.html" for it in sessions()]


@pytest.mark.parametrize("view", ["graph"], indirect=True)
def test_graph(view: View) -> None:
    for key, times, layer in (("Home", 1, 0), ("Right", 4, 4), ("Left", 1, 3), ("Right", 30, 20)):
        view.browser.press(*[key] * times)
        name, dot = view.see("state")
        assert name.startswith(f"State {dot.removeprefix('state-')}, after {layer} events")
    view.browser.press("Home")
    view.click("#edges button")
    assert "after 1 event;" in view.see("state")[0]


@pytest.fixture
def cycles(gallery: Path) -> list[int]:
    """The minor cycle of each event of the page of a schedule."""
    found = DATA.search((gallery / "cycles.html").read_text(encoding="utf-8"))
    assert found
    cycles: list[int] = json.loads(found[1])["cycles"]
    return cycles


@pytest.mark.parametrize("view", ["cycles"], indirect=True)
def test_columns_of_cycles(view: View, cycles: list[int]) -> None:
    view.browser.press("Home")
    for n, cycle in enumerate(cycles, 1):
        step = view.see("shown")
        assert (step["number"], step["column"]) == (str(n), str(cycle))
        view.browser.press("Right")


@pytest.mark.parametrize("view", ["cycles"], indirect=True)
def test_buttons_of_cycles(view: View, cycles: list[int]) -> None:
    """They lead to the last event of each cycle."""
    lasts = [cycles.index(cycle) + cycles.count(cycle) for cycle in sorted(set(cycles))]
    view.browser.press("Home")
    for button, wanted in (("#cycle-on", lasts[1:]), ("#cycle-back", lasts[-2::-1])):
        for number in wanted:
            view.click(button)
            assert view.see("shown")["number"] == str(number)


def test_pictures(gallery: Path, pictures: Path) -> None:
    """Takes the pictures."""
    pages = {f"{name}-{kind}": (f"{name}.html#event-{event}", window)
             for name, event in PICTURED.items() for kind, window in PICTURES.items()}
    pictures.mkdir(parents=True, exist_ok=True)
    with Chromium() as browser:
        for picture, (page, (width, height, scheme, scale)) in {**OF_DOCS, **pages}.items():
            browser.show_as(width, height, scheme, scale=scale)
            browser.open(f"{gallery.as_uri()}/{page}")
            if "#event-" in page:
                browser.run("window.scrollTo(0, 0);")
            browser.picture(pictures / f"{picture}.png")

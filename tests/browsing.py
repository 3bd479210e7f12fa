"""Pages in a browser, as the tests see them."""

from __future__ import annotations

from contextlib import contextmanager
from pathlib import Path
from typing import Any, Iterator, Mapping, TypeVar

from cdc6600.checks.web_driver import Browser

Window = tuple[int, int]
WIDE, NARROW = (1280, 900), (360, 740)
SCHEMES = ("light", "dark")


class View:
    """A page in a browser. The functions of looking.js and of other scripts of this folder look at it."""

    def __init__(self, browser: Browser, page: Path, *scripts: str) -> None:
        self.browser, self.url = browser, page.as_uri()
        files = (Path(__file__).with_name(name) for name in ("looking.js", *scripts))
        self.scripts = "".join(file.read_text(encoding="utf-8") for file in files)

    def see(self, name: str, *given: object) -> Any:
        """Calls a function of the scripts in the page; what it returns."""
        return self.browser.run(f"{self.scripts}return {name}(...arguments);", *given)

    def at_events(self, *names: str) -> list[Any]:
        """What functions return at the first event, the second one and the last one, all lists in one."""
        found = []
        for key in ("Home", "Right", "End"):
            self.browser.press(key)
            found += [it for name in names for it in self.see(name)]
        return found

    def open(self, fragment: str = "") -> None:
        """Opens the page anew."""
        self.browser.open("about:blank")
        self.browser.open(self.url + fragment)

    def click(self, selector: str) -> None:
        """Clicks on the first element of a selector."""
        self.browser.click(self.browser.element(selector))

    def check_labels(self, controls: Mapping[str, tuple[str, str]]) -> None:
        """Checks that a screen reader has a role for each element, and a name that begins like this."""
        found = {it: self.browser.label(self.browser.element(it)) for it in controls}
        begun = {it: (role.replace("image", "img"), name[: len(controls[it][1])]) for it, (role, name) in found.items()}
        assert begun == controls


Viewed = TypeVar("Viewed", bound=View)


@contextmanager
def opened(view: Viewed) -> Iterator[Viewed]:
    """Opens a page in a wide window. By the end the browser may have asked for nothing else, and noted no fault."""
    view.browser.show_as(*WIDE)
    view.browser.requests()
    view.browser.faults()
    view.open()
    yield view
    others = [it for it in view.browser.requests() if it.partition("#")[0] not in (view.url, "about:blank")]
    assert (others, view.browser.faults()) == ([], [])


def size_of(window: Window) -> str:
    """The size of a window, by which a case is named."""
    return f"{window[0]}x{window[1]}"

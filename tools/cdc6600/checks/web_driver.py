"""A browser without a window that a check drives: what its clients have in common, by the commands of WebDriver. There
is a client for Chromium and one for Firefox."""

from __future__ import annotations

import base64
from abc import ABC, abstractmethod
from pathlib import Path
from typing import Any

from cdc6600.shared.waiting import wait_until

# The milliseconds after which a browser gives up a page or a script: a day, which no wait here takes.
LIMIT = 86_400_000
# The keys that have names, by WebDriver.
KEYS = {"Left": "\ue012", "Right": "\ue014", "Home": "\ue011", "End": "\ue010", "Tab": "\ue004", "Enter": "\ue007"}
ELEMENT = "element-6066-11e4-a52e-4f735466cecf"
IS_SHOWN_AS = """
return matchMedia(arguments[0]).matches || !document.querySelector("meta[name=viewport]");
"""


class Refused(Exception):
    """What a browser says of a command that it couldn't carry out."""


class Browser(ABC):
    """A browser with one page. A client has the abstract methods."""

    @abstractmethod
    def send(self, command: str, **given: Any) -> Any:
        """Gives a command of WebDriver; its value."""

    @abstractmethod
    def run(self, script: str, *given: Any) -> Any:
        """Runs a script in the page; its result."""

    @abstractmethod
    def look(self, width: int, height: int, scheme: str, media: str, scale: float) -> None:
        """Sets the size of the window and how pages are shown."""

    @abstractmethod
    def use_scripts(self, is_used: bool) -> None:
        """Says whether pages that are opened from now on run their scripts."""

    @abstractmethod
    def requests(self) -> list[str]:
        """The addresses that were asked for since the last call, without those of data."""

    @abstractmethod
    def faults(self) -> list[str]:
        """The faults that the browser noted since the last call."""

    @abstractmethod
    def close(self) -> None:
        """Ends the browser."""

    def __enter__(self) -> Browser:
        return self

    def __exit__(self, *raised: object) -> None:
        self.close()

    def open(self, url: str) -> None:
        """Opens a page, and waits until it is there."""
        self.send("Navigate", url=url)

    def press(self, *names: str) -> None:
        """Presses keys, one after the other."""
        actions = [{"type": kind, "value": KEYS[name]} for name in names for kind in ("keyDown", "keyUp")]
        self.send("PerformActions", actions=[{"type": "key", "id": "keyboard", "actions": actions}])

    def element(self, selector: str) -> str:
        """The number of the first element that a selector names."""
        return str(self.send("FindElement", using="css selector", value=selector)[ELEMENT])

    def click(self, element: str) -> None:
        """Clicks on an element."""
        self.send("ElementClick", id=element)

    def label(self, element: str) -> tuple[str, ...]:
        """What a screen reader says of an element: its role, and its name."""
        found = [self.send(name, id=element) for name in ("GetComputedRole", "GetComputedLabel")]
        return tuple(it.strip() for it in found)

    def picture(self, file: str | Path) -> None:
        """Takes a picture of what is in the window."""
        Path(file).write_bytes(base64.b64decode(self.send("TakeScreenshot", full=False)))

    def show_as(
        self, width: int, height: int, scheme: str = "light", media: str = "screen", scale: float = 1
    ) -> None:
        """Shows the page in a window of this size, in this scheme, on a screen or on paper, and waits until it is shown
        so. The empty page before all others has a width of its own."""
        self.look(width, height, scheme, media, scale)
        wanted = f"{media} and (width: {width}px) and (height: {height}px) and (prefers-color-scheme: {scheme})"
        wait_until(lambda: bool(self.run(IS_SHOWN_AS, wanted)), f"the page to be shown as {wanted}")

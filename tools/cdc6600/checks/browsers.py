"""The browsers in which pages are tried: each that is installed."""

from typing import Callable

from .chromium import Chromium
from .debian import BROWSERS, absent, names_of
from .firefox import Firefox
from .web_driver import Browser

CLIENTS: dict[str, Callable[[], Browser]] = {"Chromium": Chromium, "Firefox": Firefox}


def why_left_out(name: str) -> str:
    """Why pages aren't tried in a browser, or nothing if it is installed."""
    lacking = absent(BROWSERS[name])
    return f"{name} is left out: {names_of(lacking)} isn't installed" if lacking else ""

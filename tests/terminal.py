"""A terminal with a program in it: an xterm by its sequences, with the screen that the program draws."""

from __future__ import annotations

import os
import termios
from typing import Any, Mapping

import pexpect
import pyte

from cdc6600.shared.waiting import MINUTES

# The lines and columns of a terminal.
SIZE = 24, 80
# Variables by which curses would take another size, or another time for a key.
UNSET = dict.fromkeys(("COLUMNS", "LINES", "ESCDELAY"))


class Screen(pyte.Screen):
    """The screen of an xterm, which can repeat the last character that it has drawn."""

    def draw(self, data: str) -> None:
        super().draw(data)
        self.last = data[-1]

    def repeat(self, count: int) -> None:
        self.draw(self.last * count)


class Stream(pyte.ByteStream):
    """The sequences of an xterm. Pyte doesn't know the one that repeats a character."""

    csi = {**pyte.ByteStream.csi, "b": "repeat"}


class Terminal(pexpect.spawn):
    """A program in a terminal of its own. `written` has all that it has written there so far."""

    def __init__(self, *words: str, size: tuple[int, int] = SIZE, environment: Mapping[str, str] = {}, **how: Any):
        own = {name: value for name, value in os.environ.items() if name not in UNSET}
        super().__init__(words[0], [*words[1:]], dimensions=size, timeout=60 * MINUTES,
                         env={**own, "TERM": "xterm", **environment}, **how)
        self.delaybeforesend, self.written, self.settings_before = None, b"", self.settings
        self.begin_screen(*size)

    @property
    def settings(self) -> list[Any]:
        """The settings of the terminal."""
        return termios.tcgetattr(self.fileno())

    @property
    def lines(self) -> list[str]:
        """The lines of the screen."""
        return [line.rstrip() for line in self.screen.display]

    def begin_screen(self, lines: int, columns: int) -> None:
        """Draws all that was written on a new screen."""
        self.screen = Screen(columns, lines)
        self.stream = Stream(self.screen)
        self.stream.feed(self.written)

    def setwinsize(self, rows: int, cols: int) -> None:
        """Gives the terminal another size, which the program learns by a signal."""
        super().setwinsize(rows, cols)
        self.begin_screen(rows, cols)

    def read_nonblocking(self, size: int = 1, timeout: float = -1) -> bytes:
        """Reads what the program writes next, and draws it. All reads of `expect` are of this kind."""
        part: bytes = super().read_nonblocking(size, timeout)
        self.written += part
        self.stream.feed(part)
        return part

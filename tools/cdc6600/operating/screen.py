"""Drives a machine on a whole terminal."""

import codecs
import curses
import os
import select
import sys
from typing import Iterable

from cdc6600.drawing.following import Fault
from cdc6600.drawing.listing import MARK
from cdc6600.shared.ending import printable

from .board import WIDTH, board, offered, wrapped
from .commands import PAST, SOURCE, VALUES, Commands, Quit
from .phrases import completed

LINES = 24
KEYS = "Up, Down, Enter: make one. Left: undo. Right: next. Tab completes. ?: help"
TYPING = "A line is being typed: Enter carries it out, and Escape clears it."
# After this many inputs without a key the terminal counts as unreadable.
TRIES = 100
LAST_BYTE = 255
# The seconds between two looks at the terminal's size.
PAUSE = 0.5
# The lines of the values of all registers.
REGISTER_LINES = 8
# By how many lines the past events are scrolled at once.
PAGE = 8
ENTER = ("\n", "\r", curses.KEY_ENTER)
ERASE = ("\b", "\x7f", curses.KEY_BACKSPACE)
CLOSED, REDRAW, COMPLETE = "\x04", "\x0c", "\t"
# The keys that clear the line that is typed, and its last word: Escape, Ctrl-U and Ctrl-W.
CLEAR, CLEAR_WORD = ("\x1b", "\x15"), "\x17"
# The keys that bring back a line typed before, and one typed after it.
EARLIER, LATER = "\x10", "\x0e"


def size() -> tuple[int, int]:
    """The lines and columns of the terminal."""
    width, height = os.get_terminal_size(sys.stdout.fileno())
    return height, width


def is_resized() -> bool:
    """Whether the terminal's size differs from the window's. Curses misses a resize signal that arrives just before it
    waits for a key."""
    return curses.is_term_resized(*size())


def is_readable(seconds: float) -> bool:
    """Waits for input, at most this many seconds; whether there is any."""
    return bool(select.select([sys.stdin], [], [], seconds)[0])


class Screen:
    """The machine, the events that may be tried, and a line that is typed, on the terminal's window. At the end of the
    session it has what was printed there instead. `chosen` is the event, or then the first line, that is in sight."""

    def __init__(self, window: curses.window, commands: Commands) -> None:
        self.window, self.commands, self.operation = window, commands, commands.operation
        self.typed, self.chosen, self.said = "", 0, self.operation.said()
        # The lines that were typed, which of them is shown, and by how many lines the past events are scrolled.
        self.lines, self.at, self.scrolled = list[str](), 0, 0
        self.offers = self.operation.offers()

    def run(self) -> None:
        """Goes on up to `quit`."""
        curses.set_escdelay(25)
        self.window.nodelay(True)
        while True:
            self.draw()
            try:
                self.press(self.key())
            except Quit:
                return

    def key(self) -> str | int:
        """Returns the next key, or KEY_RESIZE after a change of the terminal's size. Skips bytes that are no letter in
        the terminal's encoding."""
        decoder, tries = codecs.getincrementaldecoder(self.window.encoding)("ignore"), TRIES
        while tries:
            key = self.window.getch()
            if key > LAST_BYTE:
                return key
            letter = decoder.decode(bytes([key])) if key >= 0 else ""
            if letter:
                return letter
            if key < 0 and is_resized():
                return curses.KEY_RESIZE
            tries -= key < 0 and is_readable(PAUSE)
        raise Fault("the terminal", "no key can be read")

    def press(self, key: str | int) -> None:
        """Does what a key stands for."""
        choices = {curses.KEY_UP: -1, curses.KEY_DOWN: 1}
        if isinstance(key, int) and key in choices:
            last = len(self.offers or self.operation.ending()) - 1
            self.chosen = max(min(self.chosen + choices[key], last), 0)
        elif key in ENTER:
            self.carry_out(self.typed or (self.offers[self.chosen].event if self.offers else ""))
        elif key in (curses.KEY_LEFT, curses.KEY_RIGHT):
            self.step("undo" if key == curses.KEY_LEFT else "next")
        elif key in (curses.KEY_PPAGE, curses.KEY_NPAGE):
            self.scrolled = max(self.scrolled + (PAGE if key == curses.KEY_PPAGE else -PAGE), 0)
        elif key == CLOSED:
            self.carry_out("quit")
        elif key in (REDRAW, curses.KEY_RESIZE):
            self.window.clear()
        else:
            self.edit(key)

    def step(self, command: str) -> None:
        """Goes a step on or back, unless a line is being typed."""
        if self.typed:
            self.said = TYPING
        else:
            self.carry_out(command)

    def edit(self, key: str | int) -> None:
        """Changes the line that is typed."""
        if key in ERASE:
            self.typed = self.typed[:-1]
        elif key in CLEAR:
            self.typed = ""
        elif key == CLEAR_WORD:
            self.typed = self.typed.rstrip(" ").rpartition(" ")[0]
        elif key == COMPLETE:
            self.complete()
        elif key in (EARLIER, LATER):
            self.bring_back(-1 if key == EARLIER else 1)
        elif key == "?" and not self.typed:
            self.carry_out("?")
        elif isinstance(key, str) and " " <= key <= "~":
            self.typed += key

    def complete(self) -> None:
        """Completes what is typed. Where it may become several lines, these are told."""
        before = self.typed
        self.typed, found = completed(self.typed, [offer.event for offer in self.offers])
        if self.typed == before and len(found) != 1:
            self.said = f"It may become: {', '.join(it.strip(' ') for it in found)}." if found else "Nothing begins so."

    def bring_back(self, step: int) -> None:
        """Brings back a line that was typed."""
        self.at = min(max(self.at + step, 0), len(self.lines))
        self.typed = self.lines[self.at] if self.at < len(self.lines) else ""

    def carry_out(self, line: str) -> None:
        """Carries out a line, and offers what may be tried then."""
        self.lines += [self.typed] * bool(self.typed)
        self.typed, self.at, self.scrolled = "", len(self.lines), 0
        self.said = self.commands.carry_out(line)
        self.offers, self.chosen = self.operation.offers(), 0

    def draw(self) -> None:
        """Draws everything, or that the terminal is too small."""
        if is_resized():
            curses.resizeterm(*size())
        self.window.erase()
        height, width = self.window.getmaxyx()
        if height < LINES or width < WIDTH:
            self.put(0, f"The terminal is too small: it takes {WIDTH} columns and {LINES} lines."[: width - 1])
        else:
            self.draw_all(height)
        self.window.refresh()

    def draw_all(self, height: int) -> None:
        """Draws the title, what is said, the machine, what may be tried, and the line that is typed."""
        title = f"{printable(self.operation.file)}, {self.operation.progress}"
        self.put(0, f"{title:<{WIDTH - 1}}"[: WIDTH - 1], curses.A_REVERSE)
        said = wrapped(self.said)
        if self.operation.is_over and not self.commands.pane:
            self.put_all([*said, "", *self.operation.ending()[self.chosen :]][: height - 2])
        else:
            # What is said is always there whole, and at least one of the events.
            lines = [*self.pane(height - 3 - len(said)), *said]
            below = min(len(self.offers), height - 2 - len(lines))
            values = self.values(height - 2 - len(lines) - below)
            self.put_all([*lines, *[""] * (height - 2 - len(lines) - len(values)), *values])
            self.draw_offers(height - 1 - below - len(values), below)
        shown = (f"> {self.typed}"[-(WIDTH - 2) :], curses.A_NORMAL) if self.typed else (KEYS, curses.A_DIM)
        self.put(height - 1, *shown)

    def values(self, room: int) -> list[str]:
        """The values of the registers, which stand below the events, with an empty line before them; nothing if there
        is no room for all of them, or they are shown instead of the machine."""
        is_shown = self.commands.pane == VALUES
        return [] if is_shown or room <= REGISTER_LINES else ["", *self.operation.value_lines()[:REGISTER_LINES]]

    def pane(self, height: int) -> list[str]:
        """The machine in at most so many lines, or what is shown instead of it."""
        lines = self.commands.lines() if self.commands.pane else board(self.operation.view)
        if self.commands.pane == SOURCE:
            # The next instruction is in sight.
            at = next((at for at, line in enumerate(lines) if line.startswith(MARK)), 0)
            first = max(min(at - height // 2, len(lines) - height), 0)
            return [line[: WIDTH - 1] for line in lines[first : first + height]]
        if self.commands.pane != PAST:
            return lines[:height]
        self.scrolled = min(self.scrolled, max(len(lines) - height, 0))
        return lines[max(len(lines) - height - self.scrolled, 0) :][:height]

    def put_all(self, lines: Iterable[str]) -> None:
        for at, line in enumerate(lines, 1):
            self.put(at, line)

    def draw_offers(self, at: int, count: int) -> None:
        """Draws as many of the events that may be tried as there is room for, the chosen one among them."""
        first = max(self.chosen - count + 1, 0)
        for number, offer in enumerate(self.offers[first : first + count], first):
            is_chosen = number == self.chosen
            look = curses.A_REVERSE if is_chosen else curses.A_DIM if offer.refusal else curses.A_NORMAL
            self.put(at + number - first, f"{'>' if is_chosen else ' '} {offered(offer)}", look)

    def put(self, line: int, text: str, look: int = curses.A_NORMAL) -> None:
        """Puts a text into a line of the window. A character that the terminal's code hasn't is put as its code."""
        code = self.window.encoding
        self.window.addstr(line, 0, text.encode(code, "backslashreplace").decode(code)[:WIDTH], look)

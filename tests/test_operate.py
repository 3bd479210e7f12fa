"""Drives tools/operate in a terminal.

- A whole session is driven on the screen, and once more by lines. It has offered and typed events, refused ones, events
  that are taken back, a line that is none, and a save. The answers on the way are those of `cdc6600 events` to the
  saved session, and tools/timeline draws it.
- Values, past events, the listing of a source program, help, completion, the commands `next`, `through` and `until`,
  and the keys that change a line are tried.
- A terminal becomes smaller than the screen needs, and large again. A higher one shows the registers if it has room for
  all of them. The title and the chosen event are shown in reverse.
- A save doesn't write over a file, or through a link. A saved session is taken up.
- A run that is interrupted or ended by a signal leaves the terminal as it was, as every other one does.
- A file that isn't there, a refused deck, a terminal that is too small or none, and a program that is missing or dies
  give one line and a status.

Run it after a change of `tools/operate`, `tools/cdc6600/operating` or `tools/cdc6600/drawing`.
"""

from __future__ import annotations

import re
import signal
from contextlib import suppress
from pathlib import Path
from typing import Any, Callable, Iterator

import pexpect
import pytest
from running import Ended, Runner, called
from terminal import SIZE, Terminal

from cdc6600.shared.decks import deck
from cdc6600.shared.program import ROOT

OPERATE, DECK = str(ROOT / "tools/operate"), deck("two-adds")
FILE = str(DECK.file)
KEYS = {
    "Up": "\x1bOA", "Down": "\x1bOB", "Right": "\x1bOC", "Left": "\x1bOD", "Tab": "\t", "Escape": "\x1b",
    "Redraw": "\x0c", "Closed": "\x04", "Interrupt": "\x03", "Earlier": "\x10", "Clear": "\x15", "Clear word": "\x17",
}
# A session: what is typed, and a part of what the screen has then. Enter alone makes the event that is offered first.
SESSION = (
    ("\r", "ask 40 -> ok. An exchange with the package at 40 is asked for."), ("\r", "exchange -> ok. The registers"),
    ("\r", "issue -> ok increment1 1. SX1 B0+5 is issued to Increment 1"), ("issue\r", "issue -> ok increment2 2."),
    ("issue\r", "issue -> ok longadd 3."),
    ("issue\r", "needs Long Add, which has IX3 X1+X2 (reservation 3). That is a first-order conflict."),
    ("read longadd\r",
     "E9 operand awaited X1. Refused. X1, an operand of IX3 X1+X2 (reservation 3), is still to come"),
    ("<Left>", "Taken back: read longadd."), ("undo\r", "Taken back: issue."), ("undo\r", "Taken back: issue."),
    ("read lngadd\r", "That is no event and no command: read lngadd."),
    ("accept 3\r", "Place 3 of the hopper is empty."), ("read increment1\r", "read increment1 -> ok."),
    ("finish increment1\r", "5 for X1."), ("store increment1\r", "X1 becomes 5"), ("issue\r", "issue -> ok longadd 3."),
)
# What is typed by lines in place of keys.
BY_LINES = {"\r": "1\r", "<Left>": "undo\r"}
EVENTS = [
    "ask 40", "exchange", "issue", "issue", "accept 3", "read increment1", "finish increment1", "store increment1",
    "issue", "drain",
]
SAVED = DECK.text + "".join(f"{event}\n" for event in EVENTS).encode()
# What is typed for help, values, past events and further steps, with a part of what is then on the screen.
HELPED = (
    ("next", "ask 40 -> ok."), ("next", "exchange -> ok."), ("next", "issue -> ok increment1 1."),
    ("issue", "issue -> ok increment2 2."),
    ("next", "read increment1 -> ok."), ("through increment1", "store increment1 -> ok. X1 becomes 5"),
    ("values", "*X1 00000000000000000005 5"), ("values", "X2 00000000000000000000 0"),
    ("past", "7 store increment1 ok"), ("past", "store increment1"), ("issue", "issue -> ok longadd 3."),
    ("through longadd", "read longadd would be refused: E9 operand awaited X2."),
    ("through lngadd", "Do you mean through longadd?"), ("through shift", "Shift isn't reserved."),
    ("undp", "Do you mean undo?"), ("?", "through UNIT takes a unit to its store event"),
    ("u 2", "Taken back: issue, store increment1."), ("until X1", "store increment1 -> ok. X1 becomes 5"),
    ("until refused", "issue -> ok longadd 3."), ("undo 0", "Say how often, from 1 to 1000: undo 5, for example."),
    ("until 777777", "Say until when: until X6, until refused, or until 110 for a word that the deck shows."),
)
# What keys do on the screen after that: the next event, a line typed before, and what a line may become.
BY_KEYS = (
    ("<Right>", "read longadd -> ok."), ("<Earlier>", "> through increment2"), ("\r", "Increment 2 isn't reserved."),
    ("re<Tab><Tab>", "It may become: read add, read boolean"),
    ("ad longadd<Left>", "A line is being typed: Enter carries it out, and Escape clears it."), ("", "> read longadd"),
    ("<Clear word>s", "> reads"), ("<Clear>", "Up, Down, Enter"), ("undo<Escape>", "Up, Down, Enter"),
)
SOURCE = "START SX1 5\n* A comment\n\tSX2\t3   three\nNEXT BX3 X1\n PS\n"
# Events with the line of the listing that is marked then.
MARKED = (
    ("exchange", "> 000000 71100000057120000003 START SX1 5"), ("issue", "> SX2 3 three"),
    ("issue", "> 000001 10310000004600046000 NEXT BX3 X1"), ("issue", "> PS"),
)
# The lines that a screen with the registers takes after seven events: the title, the machine, what is said, the events,
# an empty line, the registers, and the line that is typed.
ROOMY = 1 + 14 + 2 + 5 + 1 + 8 + 1
# A program that is at its end after some lines of its input.
DYING = """#!/bin/sh
[ "$1" = events ] || exec "%s" "$@"
number=0
while [ $number -lt %d ] && IFS= read -r line
do
    printf '%%s\\n' "$line"
    number=$((number + 1))
done | "%s" events
"""
# The words of a call, further variables, the terminal's size, and what is told.
REFUSED: tuple[tuple[list[str], dict[str, str], tuple[int, int], str], ...] = (
    (["/nowhere"], {}, SIZE, "/nowhere: No such file or directory"),
    ([str(deck("refused").file)], {}, SIZE, r".*refused\.deck: E20 line 4: range"),
    ([FILE], {}, (20, 70), "the terminal: 70 columns and 20 lines; it takes 80 and 24, or --plain"),
    ([FILE], {"TERM": "nothing-known"}, SIZE, "the terminal: TERM is nothing-known: .*"),
    ([FILE], {"CDC6600": "/nowhere"}, SIZE, "/nowhere: No such file or directory"),
    ([FILE], {"CDC6600": "/bin/true"}, SIZE, "/bin/true: it ended with status 0 and no answer"),
    (["--plain", "--save", "/nowhere/at/all", FILE], {}, SIZE, "/nowhere/at/all: No such file or directory"),
    (["--save", FILE, FILE], {}, SIZE, ".*two-adds.deck: it is the deck itself, and isn't written over"),
)


class Operated(Terminal):
    """tools/operate in a terminal. It begins when the terminal's settings are known."""

    def __init__(self, folder: Path, *words: str | Path, **how: Any) -> None:
        shell = ["sh", "-c", 'read begin; exec "$@" 2>told', "sh", OPERATE]
        super().__init__(*shell, *map(str, words), cwd=folder, **how)
        self.told = folder / "told"
        self.send("\n")

    @property
    def said(self) -> str:
        """All that is on the screen, with one space for what parts its words."""
        return " ".join(" ".join(self.lines).split())

    @property
    def reversed(self) -> list[str]:
        """The lines that are shown in reverse."""
        return [line for number, line in enumerate(self.lines) if self.screen.buffer[number][0].reverse]

    def shows(self, *wanted: str) -> bool:
        """Whether all of these texts are on the screen, and the cursor is where a line is typed."""
        is_last = self.screen.cursor.y == self.screen.lines - 1
        return is_last and self.lines[-1].startswith((">", "Up, Down")) and all(it in self.said for it in wanted)

    def wait_for(self, *wanted: str) -> None:
        """Reads until all of these texts are on the screen, and a line may be typed."""
        with suppress(pexpect.EOF, pexpect.TIMEOUT):
            while not self.shows(*wanted):
                self.read_nonblocking(65536)
        assert self.shows(*wanted), f"{wanted} isn't on the screen, which has {self.said}; {self.told.read_text()}"

    def type(self, text: str, *wanted: str) -> None:
        """Types a text, which may have keys, and waits for these texts."""
        self.send(re.sub("<([^>]*)>", lambda key: KEYS[key[1]], text))
        if wanted:
            self.wait_for(*wanted)

    def ended(self) -> Ended:
        """How it ends, if the terminal is as it was before."""
        self.expect_exact(pexpect.EOF)
        assert self.settings == self.settings_before
        self.close()
        return Ended(self.exitstatus, told=self.told.read_text())


Operating = Callable[..., Operated]


@pytest.fixture
def operate(program: Runner, tmp_path: Path) -> Iterator[Operating]:
    """Begins to drive in a terminal, whose program ends with the case."""
    begun = []

    def begin(*words: str | Path, **how: Any) -> Operated:
        begun.append(Operated(tmp_path, *words, **how))
        return begun[-1]

    yield begin
    for terminal in begun:
        terminal.close()


def drive(terminal: Operated, typed_for: dict[str, str]) -> list[str]:
    """Drives the session up to its drain; the screen after each event that stands, the drain among them."""
    screens: list[str] = []
    for typed, wanted in (*SESSION, ("drain\r", "drain -> the dump.")):
        terminal.type(typed_for.get(typed, typed), wanted)
        if wanted.startswith("Taken back"):
            screens.pop()
        elif "no event" not in wanted:
            screens.append(terminal.said)
    return screens


def check_saved(program: Runner, file: Path, screens: list[str]) -> None:
    """Compares a session that was saved with what was on the screen after each of its events."""
    assert file.read_bytes() == SAVED
    answers = [*program("events", given=SAVED).lines[: len(EVENTS) - 1], "the dump"]
    for event, answer, screen in zip(EVENTS, answers, screens, strict=True):
        assert f"{event} -> {answer}." in screen
    drawn = called("tools/timeline", file)
    assert drawn.status == 0 and "drained; LOG E40 I3" in drawn.printed


def test_on_screen(program: Runner, operate: Operating, tmp_path: Path) -> None:
    terminal = operate(FILE, "--save", "screen.session")
    terminal.wait_for("after 0 events", "It waits for an exchange.")
    screens = drive(terminal, {})
    terminal.wait_for("X3 00000000000000000010", "LOG E40 I3")
    terminal.type("undo\r", "Long Add 3 IX3 X1+X2 issued")
    terminal.type("<Redraw><Down><Up>", "Reserved registers: X2 by 2, X3 by 3", "> read increment2")
    assert [line[:17] for line in terminal.reversed] == [FILE[:17], "> read increment2"]
    terminal.type("drain\r", "drain -> the dump.")
    terminal.type("save again.session\r", "Saved in again.session, after 10 events.")
    terminal.type("<Closed>")
    assert terminal.ended() == Ended(0)
    assert (tmp_path / "again.session").read_bytes() == SAVED
    check_saved(program, tmp_path / "screen.session", screens)


def test_by_lines(program: Runner, operate: Operating, tmp_path: Path) -> None:
    terminal = operate("--plain", FILE)
    terminal.wait_for("--- after 0 events ---", "1 ask 40")
    screens = drive(terminal, BY_LINES)
    terminal.type("save\rsave plain.session\r", "Say where: save FILE.", "Saved in plain.session, after 10 events.")
    terminal.type("quit\r")
    assert terminal.ended() == Ended(0)
    check_saved(program, tmp_path / "plain.session", screens)


@pytest.mark.parametrize("options", ([], ["--plain"]), ids=str)
def test_help(operate: Operating, options: list[str]) -> None:
    terminal = operate(*options, FILE)
    terminal.wait_for("after 0 events")
    for typed, wanted in HELPED:
        terminal.type(typed if typed == "?" and not options else f"{typed}\r", wanted)
    terminal.type("thr<Tab>", "> through")
    terminal.type("increment2\r", "store increment2 -> ok. X2 becomes 3")
    for typed, wanted in () if options else BY_KEYS:
        terminal.type(typed, wanted)
    terminal.type("quit\r", "The events aren't saved.")
    terminal.type("quit\r")
    assert terminal.ended() == Ended(0)


@pytest.mark.parametrize("options, others", (([], 30), (["--plain"], 3)), ids=str)
def test_listing(operate: Operating, tmp_path: Path, options: list[str], others: int) -> None:
    """The screen shows the lines around the next instruction, and lines show everything."""
    (tmp_path / "listed.source").write_text("* One\n" * others + SOURCE + "* One\n" * others, encoding="ascii")
    terminal = operate(*options, "listed.source")
    terminal.wait_for("after 0 events")
    terminal.type("ask 40\r", "ask 40 -> ok.")
    for event, wanted in MARKED:
        terminal.type(f"{event}\r", f"{event} -> ok")
        terminal.type("source\r", wanted)
        terminal.type("source\r" * (not options))
    terminal.type("quit\rquit\r")
    assert terminal.ended() == Ended(0)


def test_deck_without_listing(operate: Operating) -> None:
    terminal = operate(FILE)
    terminal.type("source\r", "The deck is from no source program.")
    terminal.type("quit\r")
    assert terminal.ended() == Ended(0)


def test_too_small(operate: Operating) -> None:
    terminal = operate(FILE)
    terminal.wait_for("after 0 events")
    terminal.type("<Right><Right>", "exchange -> ok.", "> issue")
    terminal.setwinsize(20, 70)
    terminal.expect_exact("The terminal is too small: it takes 80 columns and 24 lines.")
    terminal.setwinsize(*SIZE)
    terminal.type("<Redraw>", "exchange -> ok.", "> issue", "Long Add -", "Reserved registers: none")
    terminal.type("quit\rquit\r")
    assert terminal.ended() == Ended(0)


@pytest.mark.parametrize("code", ("C.UTF-8", "C"))
def test_no_letters(operate: Operating, code: str) -> None:
    """Bytes that are no letter in the terminal's code are passed over, each alone."""
    terminal = operate(FILE, environment={"LC_ALL": code})
    terminal.wait_for("after 0 events")
    terminal.send(b"\xe9ne\xff\x80xt\xc3 \xc3\xa97\r")
    terminal.wait_for("after 7 events")
    terminal.type("quit\rquit\r")
    assert terminal.ended() == Ended(0)


def test_registers_below(operate: Operating) -> None:
    """The registers are below the events if there is room for them all."""
    terminal = operate(FILE)
    terminal.wait_for("after 0 events")
    terminal.type("next 7\r", "after 7 events")
    terminal.type("values\r", "B7 000000")
    values = terminal.lines[1:9]
    terminal.type("values\r", "Busy banks")
    for height in range(SIZE[0], SIZE[0] + 13):
        terminal.setwinsize(height, SIZE[1])
        terminal.wait_for(" drain ")
        lines = terminal.lines
        assert (lines[-9:-1] == values) == (height >= ROOMY)
        assert height < ROOMY or lines[-10] == "" and lines[-11].startswith("  end ")
        assert sum(" drain " in line for line in lines) == 1


def test_files_that_are_kept(operate: Operating, tmp_path: Path) -> None:
    (tmp_path / "other").write_text("mine\n", encoding="ascii")
    (tmp_path / "link").symlink_to("target")
    terminal = operate(FILE)
    terminal.wait_for("after 0 events")
    for file in ("other", "link"):
        terminal.type(f"save {file}\r", f"Not saved: {file}: it is there already, and isn't written over.")
    terminal.type("<Right>", "ask 40 -> ok.")
    terminal.type("save new\r", "Saved in new, after 1 event.")
    terminal.type("quit\r")
    assert terminal.ended() == Ended(0)
    assert (tmp_path / "other").read_text(encoding="ascii") == "mine\n" and not (tmp_path / "target").exists()


def test_next_to_the_end(program: Runner) -> None:
    """A deck with loads and busy banks, by `next` alone."""
    it = deck("sum-less-one")
    came = called(OPERATE, "--plain", it.file, given="ask 40\n" + 100 * "next\n" + "end\nquit\n")
    assert program("run", given=it.text).printed in came.printed
    assert "Nothing is pending, and issue is refused: E1 halted stop." in came.printed


def test_session_that_is_taken_up(operate: Operating, tmp_path: Path) -> None:
    """It is taken up at its last event but one."""
    (tmp_path / "saved.session").write_bytes(SAVED)
    terminal = operate("saved.session")
    terminal.wait_for("after 9 events", "issue -> ok longadd 3.", "Channel 5 -")
    terminal.type("save saved.session\r", "Not saved: saved.session: it is the deck itself")
    terminal.type("quit\r")
    assert terminal.ended() == Ended(0)


@pytest.mark.parametrize("options, number, status", (
    (["--save=saved"], signal.SIGINT, 130), (["--plain"], signal.SIGINT, 130), (["--save=saved"], signal.SIGTERM, 143),
), ids=str)
def test_signal(operate: Operating, tmp_path: Path, options: list[str], number: int, status: int) -> None:
    """An interrupt is that of the terminal's key."""
    terminal = operate(FILE, *options)
    terminal.wait_for("after 0 events")
    is_changed = terminal.settings != terminal.settings_before
    if number == signal.SIGINT:
        terminal.type("<Interrupt>")
    else:
        terminal.kill(number)
    assert terminal.ended() == Ended(status) and not (tmp_path / "saved").exists()
    is_left = terminal.written.rstrip(b"\r").endswith(b"\x1b[?1l\x1b>")
    assert "--plain" in options or is_changed and is_left


@pytest.mark.parametrize("words, environment, size, told", REFUSED, ids=str)
def test_refused(
    operate: Operating, words: list[str], environment: dict[str, str], size: tuple[int, int], told: str
) -> None:
    terminal = operate(*words, environment=environment, size=size)
    terminal.type("\rquit\r")
    ended = terminal.ended()
    assert ended.status == 1 and re.fullmatch(f".*tools/operate: {told}\n", ended.told), ended


def test_program_that_dies(program: Runner, operate: Operating, tmp_path: Path) -> None:
    dying = tmp_path / "dying"
    dying.write_text(DYING % (program.path, len(DECK.text.splitlines()) + 2, program.path), encoding="ascii")
    dying.chmod(0o755)
    terminal = operate(FILE, environment={"CDC6600": str(dying)})
    terminal.wait_for("after 0 events")
    terminal.type("\r\rissue\r")
    ended = terminal.ended()
    told = "tools/operate: .*dying: it ended with status .* and no answer.*\n"
    assert ended.status == 1 and re.fullmatch(told, ended.told), ended


def test_no_terminal() -> None:
    came = called(OPERATE, FILE)
    assert came.status == 1 and came.told.endswith("no terminal; --plain takes lines\n") and came.told.count("\n") == 1

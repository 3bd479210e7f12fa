"""Checks what ./cdc6600 adds to the program that it runs.

- If standard error is a terminal, a `run` that ends with status 5 is followed by a line that says that the budget is
  used up. All else is the program's: its output, its status, and what it tells at a terminal.
- Any other run, and any without a terminal, ends as the program ends.
- Ctrl-C ends the script and the program. So does a signal that only the script gets, and then the script's status is
  that of the signal. Ctrl-Z stops both, and they can go on.
- A signal also ends what the script has started to prove and build the program, and no temporary folder is left.

The script is run in a folder of its own, with the program where the script looks for it.

Run it after a change of ./cdc6600, or of how tools/build-program ends.
"""

from __future__ import annotations

import os
import select
import shutil
import signal
from contextlib import closing
from pathlib import Path
from typing import Sequence

import pexpect
import pytest
from running import Runner, called, name_of, states_of, told_at_terminal
from small_checkout import Checkout

from cdc6600.shared.decks import deck
from cdc6600.shared.program import ROOT
from cdc6600.shared.waiting import MINUTES, finish, wait_until

SAID = "cdc6600: the budget is used up, and the program still runs: --budget N sets another budget\n"
USED_UP = "status 5\n"
ADDS, REFUSED, BEGUN = deck("two-adds").text, b"core 31\n", b"core 256\n"
# The words, the deck, and whether the script says at a terminal that the budget is used up.
CASES = (
    ("run", ADDS, False), ("run --budget 3", ADDS, True), ("run --sequential --budget 3", deck("loop").text, True),
    ("run --sequential", deck("address-fault").text, False), ("run --budget 0", ADDS, False), ("run", REFUSED, False),
    ("run --help", ADDS, False), ("replay E40_I3", ADDS, False), ("events --budget 3", ADDS, False),
    ("list", ADDS, False), ("", ADDS, False),
)
# The signals that end the script. Ctrl-C sends INT to the script and the program, the others go to the script alone.
ENDING = (signal.SIGHUP, signal.SIGINT, signal.SIGTERM)
# Runs the words after the first one, keeps their output in that file, and tells their status.
SHELL = ("sh", "-c", 'file=$1; shift; "$@" > "$file"; echo "status $?" >&2', "sh")


@pytest.fixture
def script(program: Runner, tmp_path: Path) -> str:
    """The script in a folder of its own. The program there is always that of the sources."""
    shutil.copy(ROOT / "cdc6600", tmp_path)
    built, source_sum = tmp_path / "crates/operator_main/out/operator_main", tmp_path / "tools/source-sum"
    for file in (built, source_sum):
        file.parent.mkdir(parents=True)
    built.symlink_to(Path(program.path).resolve())
    source_sum.symlink_to("/bin/true")
    return str(tmp_path / "cdc6600")


@pytest.mark.parametrize("words, text, is_used_up", CASES)
def test_case(program: Runner, script: str, tmp_path: Path, words: str, text: bytes, is_used_up: bool) -> None:
    def at_terminal(command: str, words: Sequence[str]) -> tuple[bytes, str]:
        printed = tmp_path / "printed"
        told = told_at_terminal([*SHELL, str(printed), command, *words], text)
        return printed.read_bytes(), told

    split = [it.replace("_", " ") for it in words.split()]
    printed, told = at_terminal(program.path, split)
    if is_used_up:
        assert told.endswith(USED_UP)
        told = told.removesuffix(USED_UP) + SAID + USED_UP
    assert at_terminal(script, split) == (printed, told)
    assert called(script, *split, given=text) == program(*split, given=text)


class AtTerminal:
    """A run at a terminal, which waits for its deck. Its processes have a variable of their own."""

    def __init__(self, command: str, folder: Path) -> None:
        os.mkfifo(folder / "deck")
        self.deck, self.variable = open(folder / "deck", "r+b", buffering=0), f"RUN={folder}"
        self.deck.write(BEGUN)
        line = command.replace("DECK", str(folder / "deck"))
        own = {**os.environ, "RUN": str(folder)}
        self.terminal = pexpect.spawn("sh", ["-c", line], timeout=60 * MINUTES, env=own)
        wait_until(lambda: not select.select([self.deck], [], [], 0)[0], "the program to read its deck")

    def end(self) -> tuple[int | None, bytes]:
        """The signal that ended the script, and what the terminal shows. The terminal is at its end once neither the
        script nor the program is left."""
        self.terminal.expect_exact(pexpect.EOF)
        self.terminal.close()
        wait_until(lambda: not states_of(self.variable), "the end of each process")
        return self.terminal.signalstatus, self.terminal.before

    def close(self) -> None:
        """Ends it in any case."""
        self.terminal.close(force=True)
        self.deck.close()


@pytest.mark.parametrize("number", ENDING, ids=name_of)
def test_signal_ends_the_program(script: str, tmp_path: Path, number: signal.Signals) -> None:
    """A shell runs the script, so that the terminal isn't hung up when only the script ends."""
    line = f"sh -c 'echo number $$; exec {script} run < DECK'; echo status $?; read end"
    with closing(AtTerminal(line, tmp_path)) as run:
        run.terminal.expect(rb"number (\d+)\r\n")
        os.kill(int(run.terminal.match[1]), number)
        run.terminal.expect_exact(f"status {128 + number}")
        wait_until(lambda: [*states_of(run.variable)] == [run.terminal.pid], "the end of the program")


def test_interrupted(script: str, tmp_path: Path) -> None:
    with closing(AtTerminal(f"exec {script} run < DECK", tmp_path)) as run:
        run.terminal.sendintr()
        assert run.end() == (signal.SIGINT, b"^C")


def test_stopped(script: str, tmp_path: Path) -> None:
    """The shell that runs the script has job control."""
    line = f"set -m; {script} run < DECK; read go; fg; echo status $?"
    with closing(AtTerminal(line, tmp_path)) as run:
        run.terminal.sendcontrol("z")
        wait_until(lambda: [*states_of(run.variable).values()].count("T") == 2, "the script and the program to stop")
        run.terminal.sendline()
        run.deck.write(ADDS.removeprefix(BEGUN))
        run.deck.close()
        run.terminal.expect_exact("status 0")
        assert b"LOG E40 I6" in run.terminal.before


class Begun:
    """A building that has begun and waits. At the end nothing of it may be left."""

    def __init__(self, checkout: Checkout, monkeypatch: pytest.MonkeyPatch) -> None:
        self.checkout, self.temporary = checkout, checkout.room / "tmp"
        self.temporary.mkdir()
        monkeypatch.setenv("TMPDIR", str(self.temporary))
        checkout.go.unlink()

    def wait(self) -> None:
        """Waits until it has begun."""
        wait_until(self.checkout.noted, "the building to begin")

    def is_gone(self) -> bool:
        """Whether no process is left of it once each has ended, and no temporary folder."""
        wait_until(lambda: not states_of(f"NOTES={self.checkout.notes}"), "the end of each process")
        return not list(self.temporary.iterdir())


@pytest.fixture
def begun(checkout: Checkout, monkeypatch: pytest.MonkeyPatch) -> Begun:
    return Begun(checkout, monkeypatch)


@pytest.mark.parametrize("number", ENDING, ids=name_of)
@pytest.mark.parametrize("words", (["run"], ["--unproved", "run"]), ids=" ".join)
def test_signal_ends_the_building(checkout: Checkout, begun: Begun, words: list[str], number: signal.Signals) -> None:
    with checkout.start(*words) as process:
        begun.wait()
        process.send_signal(number)
        finish(process, "./cdc6600")
    assert process.returncode == -number and begun.is_gone()


@pytest.mark.parametrize("words", (["run"], ["--unproved", "run"]), ids=" ".join)
def test_interrupted_building(checkout: Checkout, begun: Begun, words: list[str]) -> None:
    """Ctrl-C reaches the building twice: from the terminal, and from the script."""
    terminal = pexpect.spawn(
        str(checkout.root / "cdc6600"), words, timeout=60 * MINUTES, env=checkout.environment()
    )
    with closing(terminal):
        begun.wait()
        terminal.sendintr()
        terminal.expect_exact(pexpect.EOF)
    assert terminal.signalstatus == signal.SIGINT and begun.is_gone()

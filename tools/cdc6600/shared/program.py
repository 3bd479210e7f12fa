"""The program cdc6600, run with a time limit that only a run without end exceeds."""

import os
import re
import subprocess
import sys
from pathlib import Path
from subprocess import PIPE
from typing import Mapping, NamedTuple, Sequence

from .ending import printable, why_not_started
from .waiting import MINUTES, Missing, finish, input_of

ROOT = Path(__file__).resolve().parents[3]
# The program of these tools: in a checkout the one that is built, otherwise the one that tools/install put beside them.
IS_CHECKOUT = (ROOT / "crates.txt").is_file()
BUILT = ROOT / ("crates/operator_main/out/operator_main" if IS_CHECKOUT else "../../../bin/cdc6600")
# What `./cdc6600 --unproved` has built of the same sources without their proof.
UNPROVED = BUILT.with_name(f"{BUILT.name}.unproved")
OTHER = "CDC6600=FILE names another executable"

# How many bytes of a log go into an argument. Linux takes at most 131,071.
OF_AN_ARGUMENT = 100_000
# The last line of a deck.
LAST_LINE = re.compile(rb"^end(\n|\Z)", re.MULTILINE)


def followed(deck: bytes, log: str) -> bytes:
    """A deck with the line of a log after it, in place of what follows the deck's last line. A deck without that line
    is refused before its log is read, and stays as it is."""
    last = LAST_LINE.search(deck)
    return b"%send\n%s\n" % (deck[: last.start()], log.encode()) if last else deck


def words_and_input(log: str, deck: bytes) -> tuple[list[str], bytes]:
    """The words by which a command like `replay` gets a log, and its standard input. The log is an argument or, if it
    is too long for one, the line after the deck."""
    return ([log], deck) if len(log) <= OF_AN_ARGUMENT else (["--log-follows"], followed(deck, log))


class Ran(NamedTuple):
    """How a run ended: its status, and what it wrote to standard output and to standard error."""

    status: int
    printed: bytes
    told: bytes


def named_program() -> str | None:
    """The program that CDC6600 names, or none."""
    return os.environ.get("CDC6600") or None


def is_current(file: Path) -> bool:
    """Whether an executable of a checkout is that of the sources as they are."""
    words = [f"{ROOT}/tools/source-sum", "--of", f"{file}.sources"]
    return file.exists() and not subprocess.run(words, check=False).returncode


def unproved_path() -> str | None:
    """The unproved program, which is told, or none if it isn't built of the sources as they are."""
    if not is_current(UNPROVED):
        return None
    told = "UNPROVED: what runs is built from the sources without their proof, and 16 to 180 times slower"
    print(printable(f"{sys.argv[0]}: {told}"), file=sys.stderr, flush=True)
    return str(UNPROVED)


def program_path() -> str:
    """The program that CDC6600 names; otherwise the one that is installed with the tools, if they are; otherwise the
    one that `./cdc6600` runs. If that isn't built of the sources as they are, it is the unproved one, which is told, or
    else the program is built first. What is run is the executable, without the script's look at the sources at each
    run."""
    if IS_CHECKOUT and not named_program() and not is_current(BUILT):
        if unproved := unproved_path():
            return unproved
        if not BUILT.exists():
            told = "proving and building the program first, which takes some ten minutes"
            print(printable(f"{sys.argv[0]}: {told}; {OTHER}"), file=sys.stderr, flush=True)
        if subprocess.run([ROOT / "tools/build-program"], check=False).returncode:
            sys.exit(printable(f"{sys.argv[0]}: the program could not be built"))
    return named_program() or str(BUILT)


class NoProgram(SystemExit):
    """There is no such program. Where nobody looks for this, it ends the script with a line that says so."""

    def __init__(self, path: str, what: str) -> None:
        self.line = f"{path}: {what}"
        super().__init__(printable(f"{sys.argv[0]}: {self.line}"))


class Program:
    """The program, to be run any number of times."""

    def __init__(self, path: str | None = None) -> None:
        self.path = path or program_path()

    def run(self, words: Sequence[str], text: bytes = b"", minutes: float = MINUTES,
            environment: Mapping[str, str] | None = None) -> Ran:
        """Runs it with these words and this standard input. A run that doesn't end within so many minutes is killed,
        and its status is that of `timeout`, 124.

        Raises NoProgram where there is none."""
        with input_of(text) as given:
            try:
                process = subprocess.Popen([self.path, *words], stdin=given, stdout=PIPE, stderr=PIPE, env=environment)
            except OSError as fault:
                raise NoProgram(self.path, why_not_started(fault)) from None
        with process:
            try:
                printed, told = finish(process, self.path, minutes)
            except Missing:
                return Ran(124, b"", b"waited %g minutes for its end\n" % minutes)
        return Ran(process.returncode, printed, told)

    def replay(self, log: str, text: bytes) -> Ran:
        """Runs the replay of a log of any length on a deck."""
        words, given = words_and_input(log, text)
        return self.run(["replay", *words], given)


def tell(faults: Sequence[object]) -> int:
    """Writes each fault to standard error, after the name of the check that runs; its status."""
    for fault in faults:
        print(f"{sys.argv[0]}: {fault}", file=sys.stderr)
    return 1 if faults else 0

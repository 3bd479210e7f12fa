"""The cases on which wrong bodies are run: a command of an executable with its input, and what it writes with the right
bodies.

Those of the program are the stored sessions and decks, the rows of the pages of refusals and requests, the commands of
the page of commands, and drawn sessions. Runs by threads come first for a crate that only they use, and last for the
others, since they take longest. If such a run may have several logs, any of them is right. The cases of a crate of
tests are its tests.
"""

import random
import re
import resource
import signal
import subprocess
import tempfile
from dataclasses import dataclass, replace
from pathlib import Path
from typing import IO, Iterable, Iterator

from cdc6600.checks.drawn_sessions import drawn_session
from cdc6600.shared.decks import PAGES, deck, decks, log_of, rows_of, sessions
from cdc6600.shared.program import ROOT, Program, followed

from .choosing import STARTING

# A body may run on and on, and print on and on. The right program's longest case takes less than a tenth of these
# seconds on an idle machine, and prints less than a hundredth of these bytes.
SECONDS, BYTES = 30, 1 << 24
# The words before a command that kill it after this time, with all its processes and with `timeout` itself.
TIMED, TIMED_OUT = ["timeout", "-s", "KILL", str(SECONDS)], -signal.SIGKILL
# The program without its proof takes minutes for these decks.
LONG = {"endless"}
DRAWN = 60
# How a command of a page begins, and the program in it.
PROMPT, NAMED = "$ ", "./cdc6600"


@dataclass(frozen=True)
class Ran:
    """The end of a run: its output, and its status, which is negative if a signal ended it."""

    status: int
    printed: bytes
    told: bytes

    def lines(self) -> list[str]:
        """The output and the end of the run, as lines that can be printed."""
        ends = {TIMED_OUT: f"no end in {SECONDS} seconds", -signal.SIGSEGV: "a fault of memory"}
        text = (self.printed + self.told).decode("ascii", "replace")
        return [*text.splitlines(), ends.get(self.status, f"status {self.status}")]

    def differs(self, right: "Ran") -> str | None:
        """The first line in which this run differs from the right one, in words; none if it doesn't differ."""
        if self == right:
            return None
        pairs = zip(self.lines(), right.lines())
        return next((f"`{a[:100]}` in place of `{b[:100]}`" for a, b in pairs if a != b), "other bytes in these lines")


@dataclass(frozen=True)
class Case:
    """A command of an executable by its words, its input, and a name; or by a line for the shell. A test has no input,
    and fails or not. If the log of a run depends on its threads, `logs` has the logs that it may have."""

    name: str
    words: tuple[str, ...] = ()
    text: bytes = b""
    line: str = ""
    is_test: bool = False
    logs: tuple[str, ...] = ()

    def differs(self, came: Ran, right: Ran) -> str | None:
        """Where a run differs from the right one, in words; none where it doesn't."""
        if self.is_test and came.status:
            return "it fails" if not right.status else None
        log = log_of(came.printed)
        if log in self.logs and log != log_of(right.printed):
            came = replace(came, printed=right.printed)
        return came.differs(right)

    def run(self, file: Path) -> Ran:
        """How an executable does it. One that runs on is killed."""
        words = ["sh", "-c", self.line.replace(NAMED, f"'{file}'")] if self.line else [str(file), *self.words]
        with tempfile.TemporaryFile() as printed, tempfile.TemporaryFile() as told, tempfile.TemporaryFile() as given:
            given.write(self.text)
            given.seek(0)
            with STARTING:
                process = subprocess.Popen(
                    [*TIMED, *words], cwd=ROOT, stdin=given, stdout=printed, stderr=told, preexec_fn=limit
                )
            return Ran(process.wait(), *(read(it) for it in (printed, told)))


def limit() -> None:
    """Ends a program that prints on and on."""
    resource.setrlimit(resource.RLIMIT_FSIZE, (BYTES, BYTES))


def read(file: IO[bytes]) -> bytes:
    file.seek(0)
    return file.read()


def stored() -> Iterator[Case]:
    for session in sessions():
        yield Case(str(session), ("events",), session.text)
        yield Case(f"{session} with a budget of 2", ("events", "--budget", "2"), session.text)
        yield Case(f"{session} by replay", ("replay", session.log), session.text)
        yield Case(f"{session} by replay with reads in between", ("replay", in_parts(session.log)), session.text)
    for it in (it for it in decks() if it.name not in LONG):
        yield Case(f"{it} by run --sequential", ("run", "--sequential", *it.arguments), it.text)
        if it.listing is not None:
            yield Case(f"{it} by list", ("list",), it.text)
            yield Case(f"{it} by replay --log-follows", ("replay", "--log-follows"), followed(it.text, it.log))
        if it.dump is not None:
            yield Case(f"{it} by replay", ("replay", it.log), it.text)


def in_parts(log: str) -> str:
    """A log in which each instruction is an entry of its own, after a peripheral read."""
    return re.sub(r"I([0-9]+)", lambda it: " ".join(["R0 I1"] * int(it[1])), log)


def requests(*words: str) -> Iterator[Case]:
    """The cases of the page of requests for exchanges, by this command."""
    packages = deck("four-packages").text
    for at, (lines, budget, _, logs) in enumerate(rows_of(PAGES / "requests.md"), 1):
        text = packages.replace(b"\nend\n", f"\n{lines}\nend\n".replace("; ", "\n").encode())
        name = f"row {at} of {PAGES.name}/requests.md by {' '.join(words)}"
        raced = tuple(logs.split(", ")) if "--sequential" not in words else ()
        yield Case(name, (*words, "--budget", budget), text, logs=raced)


def rows() -> Iterator[Case]:
    """The cases of the pages: decks that are refused, and requests for exchanges."""
    for at, row in enumerate(rows_of(PAGES / "refusals.md"), 1):
        text = row[0].replace("\\n", "\n").replace("\\r", "\r").encode()
        yield Case(f"row {at} of {PAGES.name}/refusals.md", ("list",), text)
    yield from requests("run", "--sequential")


def commands() -> Iterator[Case]:
    """The commands of the page of commands, many of which are refused."""
    for number, line in enumerate((PAGES / "commands.md").read_text(encoding="utf-8").split("\n"), 1):
        if line.startswith(PROMPT) and NAMED in line:
            yield Case(f"the command in line {number} of {PAGES.name}/commands.md", line=line.removeprefix(PROMPT))


def threaded() -> list[Case]:
    found = [it for it in decks() if it.name not in LONG]
    cases = [Case(f"{it} by run", ("run", *it.arguments), it.text, logs=tuple(it.logs)) for it in found]
    return [*cases, *requests("run")]


def drawn(program: Path) -> Iterator[Case]:
    """Drawn sessions, whose events are drawn as the right program answers. They are the same each time."""
    for number in range(1, DRAWN + 1):
        text, made, _ = drawn_session(Program(str(program)), random.Random(f"wrong bodies {number}"))
        events = "".join(f"{event}\n" for event, _ in made)
        yield Case(f"drawn session {number}", ("events",), (text + events).encode("latin-1"))


class Cases:
    """Cases of an executable, each with what the right one does."""

    def __init__(self, file: Path, plain: Iterable[Case], by_threads: Iterable[Case] = ()) -> None:
        self.plain, self.by_threads = list(plain), list(by_threads)
        self.right = {case.name: case.run(file) for case in self.by_threads + self.plain}

    def difference(self, file: Path, is_threaded: bool = False) -> str | None:
        """The first case in which an executable does something else, and where it differs; none if there is no such
        case."""
        for case in (self.by_threads + self.plain if is_threaded else self.plain + self.by_threads):
            found = case.differs(case.run(file), self.right[case.name])
            if found:
                return f"{case.name}: {found}"
        return None


def of_program(file: Path) -> Cases:
    return Cases(file, [*stored(), *rows(), *commands(), *drawn(file)], threaded())


def of_tests(crate: str, file: Path) -> Cases:
    """The cases of a crate's tests, by its executable."""
    listed = subprocess.run([file, "--list"], capture_output=True, text=True, check=False).stdout
    names = [line.removesuffix(": test") for line in listed.splitlines() if line.endswith(": test")]
    return Cases(file, [Case(f"the test {crate}::{name}", (name,), is_test=True) for name in names])

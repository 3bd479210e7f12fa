"""Runs the program with each of its calls failing in turn: an allocation, a read, a write, the start of a thread.

A case is a command on a deck or session with calls of one kind. It runs with its first call refused, with its second,
and so on until a run meets no refusal; the same with each call from the first, second .. on. What has to come of it:

- What was printed is a beginning of what is printed as usual. A run that isn't as usual prints one fault line, E21 with
  status 6, or E22 or E23 with status 7 where a read or a write failed, and no other.
- `events` may answer `E21 out of memory` to a line `ask`, `ppread` or `ppwrite` and go on; the later answers are then
  those of the session without this line.
- `run` prints nothing at a refusal. Its dump may have another log, but one that the deck may have, and the dump is that
  of the log's replay. If a write fails, what was printed is a beginning of such a dump.
- A thread that can't be started is a refusal as that of memory is. `run --sequential` starts none.
- A read or a write that failed is told, also where another try of it would do.
- A reader that gives one byte a call and a writer that takes one change nothing.
- A fault line that can't be written leaves the status as it is.

Each run has to end within half a minute, or ten on a busy machine. Threads run in another order each time.

Run it after a change of what takes memory, reads or writes.
"""

from __future__ import annotations

from dataclasses import dataclass, replace
from functools import cache, cached_property
from itertools import count, product
from typing import Iterator

import pytest
from failing_calls import Failing
from running import Ended, bytes_of

from cdc6600.shared.decks import deck, log_of, session
from cdc6600.shared.program import followed

ENDS = (0, 3, 4, 5)
NO_MEMORY = Ended(6, told="cdc6600: E21 out of memory\n")
READ_FAILED = Ended(7, told="cdc6600: E22 read failed\n")
WRITE_FAILED = Ended(7, told="cdc6600: E23 write failed\n")
NO_ROOM = "E21 out of memory"
# The events for which the log has to grow.
GROWING = ("ask ", "ppread ", "ppwrite ")
# The calls of each kind, with what is told of one that failed, and whether a read or write moves a byte.
CALLS = (
    ("memory", NO_MEMORY, False), ("thread", NO_MEMORY, False), ("read", READ_FAILED, False),
    ("read", READ_FAILED, True), ("write", WRITE_FAILED, False), ("write", WRITE_FAILED, True),
)
# Two programs, whose packages are asked for at any time.
FREE_REQUESTS = b"""core 256
at 1
word 200000000000000
word 20000000000000
at 21
word 200000000000000
word 20000000000000
at 200
code NO; NO; NO; NO
code NO; PS
start 0
ask 20 free
ask 0 free
end
"""


def free_logs() -> Iterator[str]:
    """The logs that its run may have. An exchange comes at the end of a word, after 0, 4 or 6 instructions. The last
    one brings back the registers of the booted machine, with a field length of 0: the first fetch is out of range."""
    for counts in product((0, 4, 6), (0, 4, 6), (1,)):
        yield " ".join(f"E{at} I{count}" if count else f"E{at}" for at, count in zip((0, 20, 0), counts))


@dataclass(frozen=True)
class Case:
    """A command with its input, and the logs that its run may have, if they aren't that of `run --sequential`."""

    command: str
    text: bytes
    logs: tuple[str, ...] = ()

    @property
    def words(self) -> list[str]:
        """The words of the command; a log is one."""
        command, *log = self.command.split(" ", 1)
        return [command, *log] if command == "replay" else self.command.split()

    @property
    def is_threaded(self) -> bool:
        """Whether it is a run by threads, which may have another log each time."""
        return self.command == "run"


ADDS, JOBS, FAULT = deck("two-adds"), deck("two-jobs"), deck("address-fault")
MID_WORD, PERIPHERAL = session("mid-word-exchange").text, session("peripheral").text
CASES = {
    **{f"{it.name}: {command.split()[0]}": Case(command, it.text, tuple(it.logs))
       for it in (ADDS, FAULT) for command in ("list", f"replay {log_of(it.dump or bytes())}", "run")},
    **{f"{name}: {command}": Case(command, text, logs) for name, text, logs in (
        ("two jobs", JOBS.text, ()), ("free requests", FREE_REQUESTS, tuple(free_logs())),
    ) for command in ("run", "run --sequential")},
    **{f"{name}: events": Case("events", session(name).text)
       for name in ("address-fault", "mid-word-exchange", "asking", "sum-less-one", "peripheral")},
    "accesses replayed": Case("replay E40 I1 R111 R110 W110=5", PERIPHERAL),
    "a wrong access replayed": Case("replay E40 I1 R400", PERIPHERAL),
    "a log that follows": Case("replay --log-follows", followed(ADDS.text, "E40 I2 R100 I4")),
    "a wrong log that follows": Case("replay --log-follows", followed(ADDS.text, "E40 I2 I4")),
    "mid word: list": Case("list", MID_WORD),
    "mid word: replay": Case("replay E40 I3 E60 I1", MID_WORD),
    "mid word: run": Case("run", MID_WORD),
    "a faulty deck": Case("list", b"core 256\nword 8\n"),
    "a bad log": Case("replay I0", ADDS.text),
    "a package out of range": Case("replay E777", ADDS.text),
    "help": Case("--help", b""), "version": Case("--version", b""),
    "a bad budget": Case("run --budget 0", b""), "no command": Case("", b""),
}


@dataclass(frozen=True, eq=False)
class Tried:
    """A case and the program whose calls fail."""

    failing: Failing
    case: Case

    def run(self, call: str = "", **how: str | int) -> tuple[Ended, bool]:
        """How it ends, and whether a call failed."""
        return self.failing.failed(self.case.words, self.case.text, call, **how)

    @cached_property
    def ends(self) -> list[Ended]:
        """How it may end as usual."""
        if not self.case.is_threaded:
            return [self.run()[0]]
        program, text = self.failing.program, self.case.text
        logs = self.case.logs or [log_of(bytes_of(program("run", "--sequential", given=text).printed)) or ""]
        return [program("replay", log, given=text) for log in logs]

    @cache
    def without(self, refused: tuple[int, ...]) -> Ended:
        """How the session ends as usual, where the lines of these places are refused."""
        lines = self.case.text.splitlines(keepends=True)
        left = b"".join(line for place, line in enumerate(lines) if place not in refused)
        came = self.failing.run(self.case.words, left)
        answers, first = came.printed.splitlines(keepends=True), lines.index(b"end\n") + 1
        for place in refused:
            answers.insert(place - first, f"{NO_ROOM}\n")
        return replace(came, printed="".join(answers))

    def usual(self, printed: str) -> list[Ended]:
        """How it may end as usual. A session is that in which just those lines are refused that were refused in what
        was printed."""
        if self.case.command != "events":
            return self.ends
        lines = self.case.text.decode().splitlines()
        answers = enumerate(printed.splitlines(), lines.index("end") + 1)
        refused = [place for place, answer in answers if answer == NO_ROOM]
        return [self.without(tuple(place for place in refused if lines[place].startswith(GROWING)))]

    def is_refused(self, came: Ended, refusal: Ended) -> bool:
        """Whether this is the refusal, after a beginning of what is printed as usual."""
        is_begun = any(it.printed.startswith(came.printed) for it in self.usual(came.printed))
        may_print = not self.case.is_threaded or refusal == WRITE_FAILED
        return replace(came, printed="") == refusal and is_begun and (may_print or not came.printed)


@pytest.fixture(scope="module", params=[*CASES.values()], ids=[*CASES])
def tried(request: pytest.FixtureRequest, failing: Failing) -> Tried:
    """A case."""
    return Tried(failing, request.param)


@pytest.mark.parametrize("later", (False, True), ids=("alone", "and later"))
@pytest.mark.parametrize("call, refusal, short", CALLS)
def test_failing_call(tried: Tried, call: str, refusal: Ended, short: bool, later: bool) -> None:
    for at in count(1):
        came, failed = tried.run(call, at=at, short=short, **{"from": later})
        # A device that failed is told, also where it would serve if it were asked again.
        is_owed = failed and call in ("read", "write")
        is_usual = not is_owed and came in tried.usual(came.printed)
        assert tried.is_refused(came, refusal) or is_usual, f"{call} {at}: {came}"
        assert not (failed and call == "thread" and "--sequential" in tried.case.words), "a thread is started"
        if not failed:
            break


@pytest.mark.parametrize("short", (False, True), ids=("whole", "a byte a call"))
def test_no_failing_call(tried: Tried, short: bool) -> None:
    came, _ = tried.run(short=short)
    assert came in tried.usual(came.printed)
    assert not tried.case.is_threaded or came.status in ENDS


def test_nothing_can_be_told(tried: Tried) -> None:
    if any(it.told for it in tried.ends):
        came, _ = tried.run("told", at=1, **{"from": True})
        assert came in [replace(it, told="") for it in tried.ends]

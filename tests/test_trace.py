"""Tries tools/trace on each deck and session of decks/ whose log has up to 60 steps.

- The lines have the steps of the log, in their order, with the addresses of exchanges and peripheral accesses.
- Their results, written over the dump of the booted machine one after the other, lead to the dump after the whole log.
  Each line's operands have the values that are there by then, and P is where it was set. The registers and words that
  an instruction's text names as results are among them.
- The lines of --json, tried on the sessions and on one deck, have the same fields. The options print the same lines, as
  many as they say.
- Bad input gives one line, and an interrupt or a reader that leaves ends the tool quietly.

Run it after a change of that tool, of docs/use/instructions.md, or of a dump.
"""

from __future__ import annotations

import json
import re
import signal
import subprocess
from dataclasses import dataclass
from typing import Any, Callable, Sequence

import pytest
from running import Ended, Runner, called, text_of

from cdc6600.comparing.proved import Given, Proved
from cdc6600.comparing.suites import stored_cases
from cdc6600.shared.program import ROOT

TOOL, MOST_STEPS = "tools/trace", 60
JOBS, ENDLESS, FAULTY = "decks/run/two-jobs.deck", "decks/run/endless.deck", "decks/run/refused.deck"
# A line: the step, the letter, P, parcel and address, the text, the operands and the results.
LINE = re.compile(r" *(\d+) ([IERW]) ([0-7]{6}|-     ) ([0-3-]) ([0-7]{6}|-     ) (.{15}) (?:([^>]*) )?->(?: (.*))?")
# A text that names a register as its result, and a text that names where it stores.
SETTING, STORING = re.compile(r"[A-Z]([ABX][0-7]) "), re.compile(r"SA[67] ")
# What a dump has and no line: where the next instruction is.
UNTRACED = ("P", "PARCEL", "HELD")
# The words of a call, and what is told of it.
REFUSED = (
    (["decks/nosuch"], "tools/trace: decks/nosuch: No such file or directory"),
    (["decks"], "tools/trace: decks: Is a directory"),
    ([FAULTY], f"tools/trace: {FAULTY}: E20 line 4: range"),
    (["-"], "tools/trace: standard input: E20 line 1: no end"),
    ([JOBS, "I0"], "tools/trace: the log I0: bad log"),
    ([JOBS, "E777"], "tools/trace: the log E777: E19 package range"),
    ([JOBS, "W400=1"], "tools/trace: the log W400=1: E27 peripheral range"),
    (["--steps", "37-40", JOBS], "tools/trace: step 37: the log has 36 steps"),
)
# The same, but the parser's usage is before it.
BAD_CALLS = (
    (["--steps", "7-3", JOBS], "trace: error: argument --steps: 7-3 is no range of steps, as 3-7"),
    (["--first", "0", JOBS], "trace: error: argument --first: 0 is no number above 0"),
    (["--budget", "10000001", JOBS], "trace: error: argument --budget: 10000001 is no number from 1 to 10000000"),
    (["--budget", "3", JOBS, "E40"], "trace: error: argument --budget: not allowed with LOG"),
)
# Options, with the lines of the whole trace that they print.
PARTS = (
    (["--first", "5", JOBS], slice(5)), (["--first", "500", JOBS], slice(None)),
    (["--last", "5", JOBS], slice(-5, None)), (["--last", "500", JOBS], slice(None)),
    (["--steps", "3-7", JOBS], slice(2, 7)),
    (["--steps", "30-", JOBS], slice(29, None)), (["--steps", "9", JOBS], slice(8, 9)),
    (["--budget", "2", JOBS], slice(3)), (["-"], slice(None)), ([JOBS, "E40 I3"], slice(4)), ([JOBS, "none"], slice(0)),
)
Values = dict[str, str]


@dataclass
class Line:
    """A line of a trace."""

    step: int
    kind: str
    p: str
    address: str
    text: str
    operands: Values
    results: Values

    @classmethod
    def read(cls, line: str) -> Line:
        """Reads a line."""
        found = LINE.fullmatch(line)
        assert found, f"it hasn't the form of a line: {line}"
        step, kind, p, _, address, text, *parts = found.groups()
        operands, results = (dict(it.split("=") for it in (part or "").split()) for part in parts)
        return cls(int(step), kind, p, address, text, operands, results)

    @property
    def entry(self) -> str:
        """The entry of the log that has this step."""
        if self.kind == "I":
            return "I"
        word = f"={int(self.results['M' + self.address], 8):o}" if self.kind == "W" else ""
        return f"{self.kind}{int(self.address, 8):o}{word}"


def state_of(dump: Any) -> Values:
    """What a dump has, by the names that the lines of a trace use."""
    state = {name: value.replace(" ", "-") for name, value in dump.state.items() if name not in UNTRACED}
    return state | {f"M{address:06o}": dump.word(address) for address in range(dump.size)}


def steps_of(log: str) -> list[str]:
    """The entry of each step of a log; that of an instruction is `I`."""
    entries = [] if log == "none" else log.split()
    return [step for it in entries for step in (["I"] * int(it[1:]) if it[0] == "I" else [it])]


class Followed:
    """The machine as the lines of a trace say it, from the booted one on."""

    def __init__(self, booted: Any) -> None:
        self.state, self.p = state_of(booted), booted.state["P"]

    def step(self, line: Line) -> None:
        """Makes a line's step."""
        assert line.operands == {name: self.state.get(name) for name in line.operands}
        assert line.results.keys() >= self.named(line)
        is_instruction = line.kind == "I"
        assert not is_instruction or line.p in (self.p, f"{int(self.p, 8) + 1:06o}"), f"P was {self.p}"
        self.p = line.results.pop("P", line.p if is_instruction else self.p)
        self.state |= line.results

    def named(self, line: Line) -> set[str]:
        """The results that a line must have by its text."""
        setting = SETTING.match(line.text) if line.kind == "I" else None
        if not setting or setting[1] == "B0":
            return set()
        address = int(line.results.get(setting[1], "777777"), 8) if STORING.match(line.text) else 0o777777
        word = f"M{int(self.state['RA'], 8) + address:06o}"
        return {setting[1], *[word] * (address < int(self.state["FL"], 8) and word in self.state)}


def text_of_object(line: str) -> str:
    """The line of the text that a JSON object stands for."""
    it = json.loads(line)
    values = [" ".join(f"{name}={value}" for name, value in it[key].items()) for key in ("operands", "results")]
    parcel = "-" if it["parcel"] is None else it["parcel"]
    begin = f"{it['step']:8} {it['kind']} {it['p'] or '-':6} {parcel} {it['memory'] or '-':6} {it['text']:15} "
    return begin + " ".join(filter(None, [values[0], "->", values[1]]))


@pytest.fixture(scope="session")
def proved(program: Runner) -> Any:
    """What the program says of decks and logs."""
    return Proved()


@pytest.mark.parametrize("case", [pytest.param(it, id=it.name) for it in stored_cases()])
def test_case(proved: Any, case: Any) -> None:
    is_deck = case.name.endswith(".deck")
    log = proved.log(case.text, case.name, "--sequential") if is_deck else case.log
    steps = steps_of(log)
    if len(steps) > MOST_STEPS:
        return
    words = [case.name] if is_deck else [case.name, log]
    ran, given = called(TOOL, *words), Given(proved, case.name, case.text)
    assert (ran.status, ran.told) == (0, "")
    if case.name == JOBS or not is_deck:
        objects = called(TOOL, "--json", *words)
        assert (objects.status, objects.told, [*map(text_of_object, objects.lines)]) == (0, "", ran.lines)
    lines, followed = [*map(Line.read, ran.lines)], Followed(proved.dump(given, "none"))
    assert [(it.step, it.entry) for it in lines] == [*enumerate(steps, 1)]
    for line in lines:
        followed.step(line)
    wanted = state_of(proved.dump(given, log))
    assert {name: followed.state[name] for name in wanted} == wanted


@pytest.fixture(scope="session")
def whole(program: Runner) -> list[str]:
    """The lines of a whole trace."""
    return called(TOOL, JOBS).lines


@pytest.mark.parametrize("words, part", PARTS, ids=str)
def test_part(whole: list[str], words: Sequence[str], part: slice) -> None:
    assert called(TOOL, *words, given=(ROOT / JOBS).read_bytes()) == Ended(0, "".join(f"{it}\n" for it in whole[part]))


def test_last_step_of_a_long_trace() -> None:
    assert called(TOOL, "--steps", "1000001-", ENDLESS) == called(TOOL, "--last", "1", ENDLESS)


@pytest.mark.parametrize("words, told", REFUSED, ids=str)
def test_refused(words: Sequence[str], told: str) -> None:
    assert called(TOOL, *words) == Ended(2, told=f"{told}\n")


@pytest.mark.parametrize("words, told", BAD_CALLS, ids=str)
def test_bad_call(words: Sequence[str], told: str) -> None:
    came = called(TOOL, *words)
    assert (came.status, came.printed, came.told.splitlines()[-1:]) == (2, "", [told])


def leave(process: subprocess.Popen[bytes]) -> None:
    """Reads no more of what the tool prints."""
    assert process.stdout
    process.stdout.close()


def interrupt(process: subprocess.Popen[bytes]) -> None:
    """Interrupts it."""
    process.send_signal(signal.SIGINT)


@pytest.mark.parametrize("end, status", [(leave, 141), (interrupt, 130)])
def test_end_in_the_middle(end: Callable[[subprocess.Popen[bytes]], None], status: int) -> None:
    with subprocess.Popen([TOOL, ENDLESS], cwd=ROOT, stdout=subprocess.PIPE, stderr=subprocess.PIPE) as process:
        assert process.stdout and process.stderr
        process.stdout.readline()
        end(process)
        told = text_of(process.stderr.read())
    assert (process.returncode, told) == (status, "")


def test_closed_output() -> None:
    told = called("sh", "-c", f"exec {TOOL} {JOBS} >&-").told
    assert told == f"{TOOL}: standard output is closed\n"

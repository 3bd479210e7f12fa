"""Compares the pages of twenty random sessions, and of those of decks/sessions, with what the machine itself has.

A drawn session has one of the decks of decks/run, or a small one that is drawn. Its events are drawn one after another,
some that fit and some that don't, and each is asked for when the one before it was answered. `--seed SEED` draws other
sessions than those of each run.

- For each step of a drawn session a second reading of the session, second_reading.py, which asks the machine, has the
  same event, answer, units with their reservations and phases, places of the hopper, load channels, busy banks,
  reserved registers and package that is asked for.
- A second reading of the rules, states_by_rules.py and judging_by_rules.py, has the same parts, halt and fault as the
  machine tells, the same reason for each refusal and who holds the event back; and what the rules expect of the event
  is what the program answered.
- The values after each event of a session are those of the machine. For that, the session is run anew up to the event,
  and ended there in three ways. By `end`: where the machine is drained, all registers and words are those of the dump.
  By `drain`: a register that isn't reserved has the value of that dump, since no effect of any reservation changes it
  any more, and a reserved one keeps the value from before. By `ppread` of each word that the deck shows: where the
  machine answers it, the word is that one. Where it has to wait, the word is the one from before, unless the event is
  an acceptance.
- The octal digits, the numbers and the marks of what has changed are those of `tools/beside --values`, which takes
  drawn sessions from files, and refuses what is no session in one line.

Run it after a change of what an event does or answers, or of `tools/cdc6600/drawing`.
"""

from __future__ import annotations

import random
import re
from functools import cached_property
from pathlib import Path
from typing import Any, Iterator, Sequence

import pytest
from running import Ended, Runner, called, name_of

from cdc6600.checks.drawn_sessions import drawn_session
from cdc6600.checks.judging_by_rules import Judge
from cdc6600.checks.second_reading import SecondReading
from cdc6600.checks.states_by_rules import readings_of
from cdc6600.drawing.following import Following, Session
from cdc6600.drawing.page import Page, data_of
from cdc6600.shared.decks import FIRST, FOLDER, sessions
from cdc6600.shared.program import Program

# How many sessions are drawn, and of how many of them the values are compared.
SESSIONS, WITH_VALUES = range(1, 21), range(1, 5)
PARTS = ("units", "phases", "places", "channels", "banks", "registers", "asked", "fault", "halt", "pending")
VALUE = re.compile(r"([ *])([AB][0-7] [0-7]{6}|X[0-7] [0-7]{20}|[0-7]{6} [0-7]{20}) (-?[0-9]+)")
REGISTERS = 24
# What tools/beside refuses as a session, and what it tells.
REFUSED = (
    ("nowhere", "nowhere: no such file, and no session of decks/sessions"), (FOLDER, f"{FOLDER}: Is a directory"),
    (FIRST, f"{FIRST}: no schedule comes after its deck; tools/schedule makes one"),
)
Values = dict[str, str]


class Shown:
    """The page of a session."""

    def __init__(self, program: Program, name: str, text: str, answers: str | None = None) -> None:
        self.program, self.text = program, text
        self.following = Following(program, Session(name, text), None, answers)
        self.following.follow()
        self.page = Page(self.following, name)
        self.events = self.following.session.events[: self.following.columns]

    @cached_property
    def data(self) -> dict[str, Any]:
        data: dict[str, Any] = data_of(self.page)
        return data

    def blocks(self) -> Iterator[set[tuple[str, str, str]]]:
        """What `tools/beside --values` should print after each event: each value with its mark."""
        values = dict(self.data["values"])
        for step in self.data["steps"]:
            values |= step["values"]
            yield {("*" if name in step["values"] else " ", f"{name} {it[0]}", it[1]) for name, it in values.items()}


# ---- the second readings ----


def shown(step: dict[str, Any]) -> dict[str, Any]:
    """What a step of a page says of the parts, as the second reading has it."""
    asked = re.search(r"package at ([0-7]+)", step["machine"]["Exchange"])
    return {
        "units": {unit: (int(row), phase.split(",")[0]) for unit, (row, _, phase) in step["units"].items()},
        "places": {int(place): int(row[0]) for place, row in step["places"].items()},
        "channels": {int(at): (int(row), load == "to return") for at, (row, _, load) in step["channels"].items()},
        "banks": {int(bank): int(row[0]) for bank, row in step["banks"].items()},
        "registers": {register: int(row[0]) for register, row in step["registers"].items()},
        "asked": asked[1] if asked else "",
    }


def check_step(step: dict[str, Any], event: str, answer: str, parts: Any) -> None:
    """Compares a step of a page with the second reading."""
    assert (step["event"], step["answer"]) == (event, "the dump" if answer.startswith("P ") else answer)
    # What a drain leaves of the banks can't be asked.
    came = {name: part for name, part in shown(step).items() if not (name == "banks" and event == "drain")}
    assert came == {name: getattr(parts, name) for name in came}


def check_rules(page: Page, n: int, answer: str, judge: Judge, state: Any) -> None:
    """Compares what the machine tells of an event and of the state after it with what the rules say."""
    expected, came = judge.refusal(page.following.session.events[n]), page.retracing.states[n + 1]
    assert {name: getattr(came, name) for name in PARTS} == {name: getattr(state, name) for name in PARTS}
    assert set(came.loaded) == state.loaded
    if answer.startswith("E"):
        refusal = page.retracing.refusals[n]
        assert expected and refusal and (refusal.answer, refusal.rows) == (expected.answer, expected.rows)
        assert answer == expected.answer
    assert not (answer.startswith("ok") and expected)


def drawn(request: pytest.FixtureRequest, program: Runner, number: int) -> tuple[str, list[tuple[str, str]], list[str]]:
    """The deck of a drawn session, its events with their answers, and what is printed from the last event on."""
    seed = request.config.getoption("--seed")
    deck, made, printed = drawn_session(Program(program.path), random.Random(f"{seed} {number}"))
    return deck, made, printed


@pytest.mark.parametrize("number", SESSIONS)
def test_second_readings(program: Runner, request: pytest.FixtureRequest, number: int) -> None:
    deck, made, printed = drawn(request, program, number)
    text = deck + "".join(f"{event}\n" for event, _ in made)
    answers = "".join(f"{answer}\n" for answer in [*(answer for _, answer in made[:-1]), *printed])
    it = Shown(Program(program.path), "a random session", text, answers)
    second = SecondReading(it.program, deck)
    readings = readings_of(it.program, it.following.session, it.following.answers)
    judge = Judge(next(readings))
    for n, (event, answer) in enumerate(made):
        check_step(it.data["steps"][n], event, answer, second.read(event, answer))
        reading = next(readings)
        check_rules(it.page, n, answer, judge, reading.state)
        judge = Judge(reading)


# ---- the values ----


def number_of(digits: str) -> str:
    """The number of some octal digits, read in another way than the pages read it: digit by digit."""
    if digits[0] in "0123":
        return str(int(digits, 8))
    return f"-{int(''.join(str(7 - int(digit)) for digit in digits), 8)}"


class Machine:
    """The machine after some events of a deck, which is run anew each time."""

    def __init__(self, program: Program, deck: str) -> None:
        self.program, self.deck = program, deck
        # How many values were those of a dump.
        self.dumps = 0

    def answers(self, events: Sequence[str], *more: str) -> list[str]:
        """What is printed from the first of the events on that are put after the others."""
        text = self.deck + "".join(f"{event}\n" for event in [*events, *more])
        printed = self.program.run(["events"], text.encode("latin-1")).printed.decode("latin-1").splitlines()
        return printed[len(events) :]

    def dump(self, events: Sequence[str], last: str) -> Values | None:
        """The values of the dump at the end, or none where there is no dump."""
        lines = self.answers(events, last)
        if lines[0] == "NOT DRAINED":
            return None
        rows = [line.split(" ") for line in lines[3:13]]
        values = {f"{kind}{at}": digits for kind, *all_digits in rows[:2] for at, digits in enumerate(all_digits)}
        values |= {name: digits for name, digits in rows[2:]}
        return values | {at: word for _, at, word in (line.split(" ") for line in lines[13:-1])}

    def words(self, events: Sequence[str], addresses: Sequence[str]) -> Values:
        """The words of memory that a peripheral processor can read now, by their addresses."""
        answers = self.answers(events, *(f"ppread {address}" for address in addresses), "end")
        pairs = zip(addresses, answers)
        return {address: answer.split(" ")[1] for address, answer in pairs if answer.startswith("ok ")}

    def wanted(self, events: Sequence[str], reserved: Sequence[str], values: Values, before: Values) -> Values:
        """What the values should be after events, and those of the page are, with these registers reserved."""
        is_last = events[-1] in ("end", "drain")
        whole = self.dump(events[:-1], events[-1]) if is_last else self.dump(events, "end")
        self.dumps += whole is not None
        if is_last or whole is not None:
            return whole or before
        drained, words = self.dump(events, "drain"), self.words(events, list(values)[REGISTERS:])
        assert drained
        # Where the access waits for another reference, only an acceptance can have changed the word.
        otherwise = values if events[-1].startswith("accept") else before
        wanted = {name: (before if name in reserved else drained)[name] for name in list(values)[:REGISTERS]}
        return wanted | {name: words.get(name, otherwise[name]) for name in list(values)[REGISTERS:]}


def digits_of(shown_values: dict[str, Sequence[str]]) -> Values:
    """The digits of values that a page shows, each of which has the right number."""
    assert {name: it[1] for name, it in shown_values.items()} == {
        name: number_of(it[0]) for name, it in shown_values.items()
    }
    return {name: it[0] for name, it in shown_values.items()}


def check_values(it: Shown, least: int) -> None:
    """Compares the values that a page shows with those of the machine, at least so many times with those of a dump."""
    machine = Machine(it.program, it.text[: it.text.index("\nend\n") + len("\nend\n")])
    values = digits_of(it.data["values"])
    for n, step in enumerate(it.data["steps"], 1):
        before, changed = values, digits_of(step["values"])
        values = before | changed
        assert not [name for name, digits in changed.items() if before[name] == digits]
        wanted = machine.wanted(it.events[:n], step["registers"], values, before)
        assert values == {name: wanted[name] for name in values}
    assert machine.dumps >= least


def check_beside(it: Shown, name: str | Path) -> None:
    """Compares what `tools/beside --values` prints with the values of a page."""
    blocks: list[set[tuple[str, str, str]]] = []
    for line in called("tools/beside", "--values", name).lines:
        if line.startswith("  "):
            blocks[-1] |= set(VALUE.findall(line))
        elif len(blocks) < len(it.events):
            blocks.append(set())
    assert blocks == list(it.blocks())


@pytest.mark.parametrize("stored", sessions(), ids=name_of)
def test_values(program: Runner, stored: Any) -> None:
    it = Shown(Program(program.path), stored.name, stored.text.decode("latin-1"))
    check_values(it, 2)
    check_beside(it, stored.name)


@pytest.mark.parametrize("number", WITH_VALUES)
def test_drawn_values(program: Runner, request: pytest.FixtureRequest, tmp_path: Path, number: int) -> None:
    deck, made, _ = drawn(request, program, number)
    text = deck.replace("\nend\n", "\nshow 100 117\nend\n") + "".join(f"{event}\n" for event, _ in made)
    file = tmp_path / "drawn.session"
    file.write_text(text, encoding="latin-1")
    it = Shown(Program(program.path), "a drawn session", text)
    check_values(it, 5)
    check_beside(it, file)


@pytest.mark.parametrize("name, told", REFUSED)
def test_no_session(name: str | Path, told: str) -> None:
    assert called("tools/beside", name) == Ended(1, "", f"tools/beside: {told}\n")

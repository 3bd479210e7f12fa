"""Tries tools/explore on small decks, two of which were counted by hand.

- The states, events, schedules and cycles are those that stand here, and the machine confirms all of them.
- A shortest and a longest schedule are accepted by `events`, and have their cycles by the clock that follows them. The
  `timed` schedule of tools/schedule is between the two.
- An exploration that is wrong is found out by the machine: one without an event that is accepted, one with an event
  that is refused, and one with another dump.
- The page has a dot for each state, and the registers of the states of a shortest and a longest schedule are those of
  their sessions.
- Bad input gives one line.

Run it after a change of that tool, of `tools/cdc6600/timing`, or of `tools/cdc6600/drawing`.
"""

from __future__ import annotations

import json
import re
from dataclasses import dataclass
from pathlib import Path
from typing import Any, Iterator, Mapping, Sequence

import pytest
from running import Runner, called

from cdc6600.checks.judging_by_rules import Judge, values_of
from cdc6600.checks.states_by_rules import readings_of
from cdc6600.drawing.following import Fault, Following, Session, text_of
from cdc6600.drawing.values import REGISTERS
from cdc6600.shared.program import ROOT, Program
from cdc6600.timing.clock import clocked
from cdc6600.timing.confirming import Confirmation
from cdc6600.timing.exploring import Exploration
from cdc6600.timing.graph import Graph
from cdc6600.timing.scheduling import Schedule
from cdc6600.timing.times import read_times

MOST = 1000
DATA = re.compile(r'<script type="application/json" id="data">(.*)</script>')
DECK = "core 128\nat 41\nword 100000000000000\nword 20000000000000\nat 100\ncode {}\nstart 40\nend\n"
# What is counted: the states, the events between them, the schedules, and the cycles of a shortest and a longest one.
#
# One instruction and a stop, by hand: the boot, the request and the exchange are 3 states. After the issue, SX1 has
# made 0 to 3 of its events (read, finish, store), and PS is issued or not: 4 * 2 states. Events: request, exchange and
# issue; 3 of SX1 with and without PS, and PS at 4 points: 3 + 6 + 4. Schedules: PS at 4 points. The exchange takes 26
# cycles, and SX1 is issued at 26. If it reads at once it is stored at 29; PS can be issued from 28 on, and then is over
# at 29. If SX1 reads after the issue of PS, which is at 28, it is stored at 31.
ONE = "SX1 B0+1; PS"
# Two instructions of two units and a stop, by hand: after the first issue SX1 has made 0 to 3 of its events. Besides,
# MX2 isn't issued, or it has made 0 to 3 events, and PS is issued or not: 1 + 4 * 2 states. So there are 3 + 4 * 9
# states; 3 + 3 * 9 + 4 * (1 + 3 * 2 + 4) events; and 4 orders of MX2 and PS, 5 events, shuffled with 3 of SX1: 4 times
# 56 schedules. MX2 is issued at 28 and stored at 31. The longest issues all first, PS at 29; then SX1 reads at 29 and
# is stored at 32, and only then MX2 reads, and is stored at 35.
TWO = "SX1 B0+1; MX2 5; PS"
COUNTED = {
    ONE: (11, 13, 4, 29, 31), TWO: (39, 74, 224, 31, 35),
    "decks/two-adds.deck": (60, 104, 2240, 37, 44), "decks/run/short-field.deck": (217, 474, 341004, 34, 52),
    "decks/run/load-store.deck": (249, 588, 809488, 40, 63),
}
# The words of a call, the status, and the last line that is told.
CALLS = (
    (["decks/nosuch"], 1, "tools/explore: decks/nosuch: No such file or directory"),
    (["decks/run/refused.deck"], 1, "tools/explore: decks/run/refused.deck: E20 line 4: range"),
    (["--times", "decks", "decks/two-adds.deck"], 1, "tools/explore: decks: Is a directory"),
    (["--states", "59", "decks/two-adds.deck"], 1,
     "tools/explore: decks/two-adds.deck: it has more than 59 states; "
     "--budget 12 looks at the first 12 instructions only, --states N allows more"),
    (["--states", "0", "decks/two-adds.deck"], 2,
     "explore: error: argument --states: 0 is no number from 1 to 1000000"),
    (["--html", "--session", "longest", "decks/two-adds.deck"], 2,
     "explore: error: argument --session: not allowed with argument --html"),
)


@dataclass
class Explored:
    """A deck, the program that explores it, and its exploration."""

    name: str
    program: Program
    session: Session
    exploration: Exploration

    @classmethod
    def of(cls, runner: Runner, name: str) -> Explored:
        """The exploration of a deck of decks/, or of one with this code."""
        session = Session(name, text_of(ROOT / name) if name.startswith("decks") else DECK.format(name))
        program = Program(runner.path)
        return cls(name, program, session, Exploration(program, session, read_times(), MOST, MOST))

    def followed(self, events: Sequence[str]) -> Following:
        """A session of the deck with these events, followed to its end."""
        text = "\n".join([*self.session.text.split("\n")[: self.session.deck_end], *events, "end", ""])
        following = Following(self.program, Session(self.session.file, text), None, None)
        following.follow()
        return following

    def confirm(self, dumps: Mapping[str, str] | None = None) -> int:
        """How many events the machine makes to confirm it, if replay is taken to have printed these dumps.

        Raises Fault if the machine doesn't confirm it."""
        confirmation = Confirmation(self.program, self.session, self.exploration, MOST)
        confirmation.found.dumps.update(dumps or {})
        return confirmation.run().made


@pytest.fixture(name="explored", scope="module", params=COUNTED)
def explored_deck(program: Runner, request: pytest.FixtureRequest) -> Iterator[Explored]:
    yield Explored.of(program, request.param)


@pytest.fixture(name="small")
def small_exploration(program: Runner) -> Explored:
    return Explored.of(program, TWO)


def test_counts(explored: Explored) -> None:
    found = explored.exploration
    events = sum(len(node.edges) for node in found.nodes)
    assert (found.count, events, found.orders, *(it.end for it in found.extremes())) == COUNTED[explored.name]


def test_confirmed(explored: Explored) -> None:
    assert explored.confirm() == COUNTED[explored.name][1]


def test_cycles(explored: Explored) -> None:
    for moment in explored.exploration.extremes():
        following = explored.followed(moment.events)
        assert not [event for n, event in enumerate(following.session.events) if following.is_refused(n)]
        cycles = clocked(following, read_times())
        last = max(n for n, event in enumerate(moment.events) if not event.startswith("bank"))
        assert (cycles[-1] if last == len(moment.events) - 1 else cycles[last]) == moment.end


def test_timed_schedule(explored: Explored) -> None:
    schedule = Schedule(explored.program, explored.session, read_times())
    schedule.make()
    shortest, longest = COUNTED[explored.name][3:]
    assert shortest <= schedule.clock.now <= longest


def test_page(explored: Explored) -> None:
    graph = Graph(explored.exploration, "deck", [])
    page = graph.text()
    data = json.loads(DATA.findall(page)[0])
    states, events = COUNTED[explored.name][:2]
    assert (page.count("<circle "), len(data), sum(len(it["edges"]) for it in data)) == (states, states, events)
    for name, moment in zip(("shortest", "longest"), explored.exploration.extremes()):
        following = explored.followed(moment.events)
        readings = readings_of(explored.program, following.session, following.answers)
        for number, reading in zip(graph.paths[name], readings):
            values = values_of(Judge(reading))
            wanted = [f"{it} {int(values[it], 8):o}" for it in REGISTERS if int(values[it], 8)]
            assert data[number]["has"][-1] == f"registers, in octal: {', '.join([*wanted, 'all others 0'])}"


class Lying:
    """A machine that takes one event for refused."""

    def __init__(self, event: str | None, machine: Any) -> None:
        self.event, self.machine = event, machine

    def judge(self, event: str) -> Any:
        """The refusal of an event."""
        return self.machine.judge("accept 0" if event == self.event else event)


def test_without_an_accepted_event(small: Explored, monkeypatch: pytest.MonkeyPatch) -> None:
    found = small.exploration
    state = next(node for node in found.nodes if len(node.edges) > 1)
    event, _ = state.edges.popitem()
    state.refusals[event] = "E15 nothing"
    machine_at = found.machine_at
    monkeypatch.setattr(found, "machine_at", lambda node: Lying(event if node is state else None, machine_at(node)))
    with pytest.raises(Fault):
        small.confirm()


def test_with_a_refused_event(small: Explored) -> None:
    state = next(node for node in small.exploration.nodes if node.refusals)
    state.edges[next(iter(state.refusals))] = next(iter(state.edges.values()), small.exploration.ends[0])
    with pytest.raises(Fault):
        small.confirm()


def test_with_another_dump(small: Explored) -> None:
    with pytest.raises(Fault):
        small.confirm({"E40 I3": "another dump"})


@pytest.mark.parametrize("words, status, told", CALLS)
def test_call(words: Sequence[str], status: int, told: str) -> None:
    came = called("tools/explore", *words)
    assert (came.status, came.printed, came.told.splitlines()[-1:]) == (status, "", [told])
    assert status == 2 or came.told.count("\n") == 1


def test_output(program: Runner, tmp_path: Path) -> None:
    file = tmp_path / "one.deck"
    file.write_text(DECK.format(ONE), encoding="ascii")
    assert called("tools/explore", file).printed.startswith("11 states, 13 events between them\nschedules: 4\n")
    told = called("sh", "-c", f"tools/explore {file} > /dev/full").told
    assert told == "tools/explore: standard output: No space left on device\n"

"""Tries tools/schedule on each deck of decks/ that isn't refused, by each policy, for at most 500 instructions.

- `events` accepts every line of the session, and ends with the dump that `replay` prints for its log. It is the dump of
  `run --sequential` with the same budget, unless the log depends on when a fault is recorded.
- The waits and the work of the issuing position are the cycles of the schedule, and those of each reservation the
  cycles from its issue to its last event. For the same log the default policy takes no more cycles than the one in
  program order.
- For five decks the cycle of each event is the one that the clock gives the session when it is followed. By the
  default policy the waits of the schedule are those of its session, too. The waits of each reservation are its holds in
  the table of the reservations, and what holds it is that which the second reading of the rules says.
- Two decks whose cycles were counted by hand have just those.
- Bad options, decks and files of times give one line.

Run it after a change of that tool, of `tools/cdc6600/timing`, or of docs/use/instructions.md.
"""

from __future__ import annotations

import functools
import os
from pathlib import Path
from typing import Any, Sequence

import pytest
from running import Ended, Runner, called, name_of, text_of

from cdc6600.checks.judging_by_rules import Judge
from cdc6600.checks.states_by_rules import readings_of
from cdc6600.drawing.following import Session
from cdc6600.shared.decks import Deck, decks, log_of
from cdc6600.shared.program import ROOT, Program
from cdc6600.timing.clock import ORDER, clocked
from cdc6600.timing.scheduling import POLICIES, PROGRAM_ORDER, TIMED, Schedule
from cdc6600.timing.times import DEFAULT, read_times
from cdc6600.timing.waits import Account, Judged, account, faults_of

BUDGET, TIMES = 500, read_times()
DECK = "decks/two-adds.deck"
# Two loads from a bank: addresses 1 and 41 with a reference address of 100.
BANK = ("core 256\nat 41\nword 100000000000000\nword 100000000000000\nat 100\ncode SA1 B0+1; SA2 B0+41\ncode PS\n"
        "start 40\nend\n")
# The decks whose sessions are followed too.
FOLLOWED = ("two-adds", "load-store", "subroutine", "store-into-code", "ask-mid-word")
FAULTY = "decks/run/refused.deck"
# Both counted by hand, from cycle 0 on: the cycles, those of the issuing position's work, and the waits of that
# position and of each reservation. The exchange takes 26 cycles.
#
# In the deck of the first run, issued are SX1 at 26, SX2 at 28, both of 30 bits, and IX3 at 30. SX1 is stored at 29 and
# SX2 at 31, so IX3 reads at 31, one cycle after its issue, and is stored at 34. IX4 needs the same unit: it could be
# issued at 31, waits three cycles, and is issued at 34. NO follows at 35 and PS at 36. The last issue is over at 37,
# and IX4 is stored then.
#
# Of the two loads, SA1 is issued at 26, stored and accepted at 29 and returned at 34; its bank is busy up to 39. SA2 is
# issued at 28, stored at 31, could be accepted then, is accepted at 39 and returned at 44. PS is issued at 30, and from
# 31 on the machine is halted.
BY_HAND = (
    ((ROOT / DECK).read_text(encoding="ascii"), (37, 34, {"E7": 3}, [{}, {}, {"E9": 1}, {}])),
    (BANK, (44, 31, {"E1": 13}, [{}, {"E13": 8}])),
)
# What is told of a file of times that is the default one with a text for another.
BAD_TIMES = (
    ("shift 3", "shift", "line 13, column 6: shift has no number"),
    ("shift 3", "shift x", "line 13, column 7: 'x' is no number from 0 to 9999"),
    ("shift 3", "shift 3 4", "line 13, column 9: '4' is a field too many"),
    ("shift 3", "boolean 3", "line 13, column 1: 'boolean' is named twice"),
    ("shift 3", "  shaft 3", "line 13, column 3: 'shaft' is no name of a time"),
    ("issue15 1", "issue15 0", "line 8, column 9: '0' is no number from 1 to 9999"),
    ("bank 10", "#", "line 27, column 1: the file ends without bank"),
)
# The words of a call, the status, and the last line that is told.
CALLS = (
    (["decks/nosuch"], 1, "tools/schedule: decks/nosuch: No such file or directory"),
    (["decks"], 1, "tools/schedule: decks: Is a directory"),
    ([FAULTY], 1, f"tools/schedule: {FAULTY}: E20 line 4: range"),
    ([os.devnull], 1, f"tools/schedule: {os.devnull}: E20 line 1: no end"),
    (["--times", "decks", DECK], 1, "tools/schedule: decks: Is a directory"),
    (["--budget", "0", DECK], 2, "schedule: error: argument --budget: 0 is no number from 1 to 1000000"),
    (["--budget", "1000001", DECK], 2, "schedule: error: argument --budget: 1000001 is no number from 1 to 1000000"),
)


def scheduled(program: Runner, deck: Deck, policy: str) -> Schedule:
    """The schedule of a deck by a policy."""
    schedule = Schedule(Program(program.path), Session(str(deck), text_of(deck.text)), TIMES, policy, BUDGET)
    # The waits by what the machine has refused.
    schedule.clock.cause = lambda part, _cycles: schedule.refused.get(part, ORDER)
    schedule.make()
    return schedule


def check_session(program: Runner, deck: Deck, schedule: Schedule) -> None:
    """Compares the session of a schedule, as `events` answers it, with `replay` and a run without threads."""
    lines = program("events", given=schedule.text()).printed.split("\n")
    answers, dump = lines[: len(schedule.events)], "\n".join(lines[len(schedule.events) :])
    assert not [answer for answer in answers if not answer.startswith("ok")]
    log = log_of(dump.encode())
    assert dump == text_of(Program(program.path).replay(log or "none", deck.text).printed)
    # The log may depend on when a fault is recorded.
    assert deck.logs or dump == program("run", "--sequential", f"--budget={BUDGET}", given=deck.text).printed


class JudgedTwice(Judged):
    """Says by a machine what a part of a session waits for, and compares that with the second reading of the rules."""

    def __init__(self, program: Program, following: Any) -> None:
        super().__init__(following)
        self.readings, self.read = readings_of(program, following.session, following.answers), -1

    def go_to(self, n: int) -> None:
        """Goes on until so many events are made."""
        super().go_to(n)
        while self.read < n:
            self.read, self.reading = self.read + 1, next(self.readings)

    def refusal(self, part: Any) -> Any:
        """The refusal of a part's next event, or none."""
        found = super().refusal(part)
        wanted = Judge(self.reading).refusal(self.event(part))
        assert (found and (found.answer, found.rows)) == (wanted and (wanted.answer, wanted.rows))
        return found


def check_following(program: Runner, schedule: Schedule) -> None:
    """Compares the cycles and waits of a schedule with those of its session when it is followed."""
    following = schedule.followed()
    assert clocked(following, TIMES) == [*schedule.cycles, schedule.clock.now]
    found = Account(following, TIMES, functools.partial(JudgedTwice, Program(program.path)))
    assert not faults_of(found.clock)
    for it in found.clock.parts:
        held = sum(hold.cycles for hold in found.holds[it.number].values() if hold.event != "issue")
        assert held == it.waits.total()
    if schedule.policy == TIMED:
        of_session, of_schedule = ([it.issuing, *it.parts] for it in (found.clock, schedule.clock))
        assert [part.waits for part in of_session] == [part.waits for part in of_schedule]


@pytest.mark.parametrize("deck", [it for it in decks() if it.dump is not None], ids=name_of)
def test_deck(program: Runner, deck: Deck) -> None:
    made = {policy: scheduled(program, deck, policy) for policy in POLICIES}
    for schedule in made.values():
        assert not faults_of(schedule.clock)
        check_session(program, deck, schedule)
        if deck.name in FOLLOWED:
            check_following(program, schedule)
    timed, in_order = made[TIMED], made[PROGRAM_ORDER]
    assert timed.clock.now <= in_order.clock.now or timed.log.text != in_order.log.text


@pytest.mark.parametrize("text, wanted", BY_HAND)
def test_counted_by_hand(program: Runner, text: str, wanted: tuple[Any, ...]) -> None:
    schedule = Schedule(Program(program.path), Session("a deck", text), TIMES)
    schedule.make()
    clock = account(schedule.followed(), TIMES)
    assert (clock.now, clock.issuing.work, clock.issuing.waits, [part.waits for part in clock.parts]) == wanted


@pytest.mark.parametrize("words, status, told", CALLS)
def test_call(words: Sequence[str], status: int, told: str) -> None:
    came = called("tools/schedule", *words)
    assert (came.status, came.printed, came.told.splitlines()[-1:]) == (status, "", [told])
    assert status == 2 or came.told.count("\n") == 1


@pytest.mark.parametrize("old, new, told", BAD_TIMES)
def test_bad_times(tmp_path: Path, old: str, new: str, told: str) -> None:
    file = tmp_path / "bad.times"
    file.write_text(DEFAULT.read_text(encoding="utf-8").replace(old, new, 1), encoding="utf-8")
    assert called("tools/schedule", "--times", file, DECK) == Ended(1, "", f"tools/schedule: {file}: {told}\n")


@pytest.mark.parametrize("where, what", ((">/dev/full", "No space left on device"), (">&-", "it is closed")))
def test_output(where: str, what: str) -> None:
    told = called("sh", "-c", f"tools/schedule {DECK} {where}").told
    assert told == f"tools/schedule: standard output: {what}\n"


def test_summary() -> None:
    printed = called("tools/schedule", "--summary", "--policy=greedy", DECK).printed
    assert printed.startswith("policy greedy: 6 instructions in ")

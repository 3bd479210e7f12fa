"""Counts how often the program asks for memory. Among the events of a session, only a request for an exchange and a
peripheral access may take some; and no instruction of a replay or of a `run --sequential` may.

- For each answer of a session it counts what was asked for since the answer before. The sessions are those of `decks/`
  and one of many rounds. A round goes through a program that uses all units, has a return jump, loads, and stores into
  three pages of memory, and then through an exchange and some events that are refused.
- A session that ends with `drain` while instructions are pending takes as much for its dump as one that carried them
  out before.
- A session, a replay and a `run --sequential` of many rounds take as much as those of few.
- Some request and some access take memory, which shows that the counting counts.

Run it after a change of the log, the saved pages or the session.
"""

from __future__ import annotations

from typing import Any, Callable, Sequence

import pytest
from failing_calls import Failing

from cdc6600.shared.decks import Session, sessions

# Two packages of one program. Its three stores go to the words 500, 110 and 1100, each in another page of 256 words.
DECK = """core 700
at 41
word 00000100000000000000
word 00001100000000000000
at 61
word 00000100000000000000
word 00001100000000000000
at 100
code BX1 X2; LX3 1; IX4 X2+X7; CX5 X2
code SA6 B0+400; SA1 B0+20
code RJ 10
code SA7 B0+1000; JP B0+0
at 111
code JP B0+10
at 120
word 7
start 40
end
"""
BEGIN = ["ask 40", "exchange"]
# What the program's instructions are carried out by: a unit, with the channel and the bank of a reference.
LOOP: Sequence[tuple[Any, ...]] = (
    ("boolean",), ("shift",), ("longadd",), ("divide",), ("increment1", None, 0), ("increment1", 1, 16),
    ("branch", None, 8), ("branch",), ("branch",), ("increment1", None, 0), ("branch",),
)
# Events that are refused, each for another reason.
REFUSED = ["exchange", "read boolean", "accept 9", "return 3", "bank 99", "ask 1267", "ppread 1274"]
# The instructions up to the return jump, which are pending all at once.
PENDING = ["issue"] * 6
EXCHANGE = ["ask 60", "exchange"]
ACCESSES = ["ppwrite 1000 5", "ppread 1000", "ppwrite 20 6"]
TAKING = ("ask ", "ppread ", "ppwrite ")
ROUNDS, FEW, MANY = 100, 10, 2000


def steps(unit: str) -> list[str]:
    """The events of a unit's instruction after its issue."""
    return [f"{event} {unit}" for event in ("read", "finish", "store")]


def carried_out(unit: str, channel: int | None = None, bank: int | None = None) -> list[str]:
    """The events that carry out the next instruction by itself."""
    reference = [] if bank is None else ["accept 0", *([f"return {channel}"] if channel else []), f"bank {bank}"]
    return ["issue", *steps(unit), *reference]


ROUND = [line for unit, *numbers in LOOP for line in carried_out(unit, *numbers)]
# The units and references of the pending instructions, in an order in which they can be carried out.
UNITS = ("boolean", "shift", "longadd", "divide", "increment1", "increment2")
BY_HAND = [*(line for unit in UNITS for line in steps(unit)), "accept 0", "accept 1", "return 1"]


def session(lines: Sequence[str], end: str = "end") -> bytes:
    """The text of a session of these events."""
    return (DECK + "\n".join([*BEGIN, *lines, end, ""])).encode()


def by_event(failing: Failing, text: bytes, schedule: Sequence[str]) -> list[tuple[str, str, int]]:
    """The events of a session, each with its answer and how often it took memory; the last with the first line of the
    dump."""
    ran, before = failing.allocations_by_line(["events"], text)
    assert ran.status == 0 and len(ran.lines) >= len(schedule), ran.told
    # What is taken before the first answer is taken by the deck, for the most part. Each session begins with `ask`.
    return list(zip(schedule, ran.lines, [0, *(after - earlier for earlier, after in zip(before, before[1:]))]))


def taking(failing: Failing, text: bytes, schedule: Sequence[str]) -> set[str]:
    """The kinds of events of a session that may take memory and do; others may take none."""
    took = [it for it in by_event(failing, text, schedule)[:-1] if it[2]]
    assert not [it for it in took if not it[0].startswith(TAKING) or not it[1].startswith("ok")]
    return {event.split()[0] for event, *_ in took}


@pytest.mark.parametrize("it", sessions(), ids=str)
def test_events_of_session(failing: Failing, it: Session) -> None:
    taking(failing, it.text, it.schedule)


def test_events_of_many_rounds(failing: Failing) -> None:
    # The first round has its accesses at its end, so that its own stores come first to their pages.
    lines = (ROUND + REFUSED + EXCHANGE + ACCESSES) * ROUNDS
    took = taking(failing, session(lines), [*BEGIN, *lines, "end"])
    assert took >= {"ask", "ppread"} or took >= {"ask", "ppwrite"}


def test_no_event_of_a_round_is_refused(failing: Failing) -> None:
    events = by_event(failing, session(ROUND), [*BEGIN, *ROUND, "end"])
    assert not [event for event, answer, _ in events if not answer.startswith(("ok", "P "))]


def test_drain(failing: Failing) -> None:
    dumps = [by_event(failing, session(lines, end), [*BEGIN, *lines, end])[-1]
             for lines, end in ((PENDING + BY_HAND, "end"), (PENDING, "drain"))]
    assert all(answer.startswith("P ") for _, answer, _ in dumps) and dumps[0][2] == dumps[1][2]


@pytest.mark.parametrize("words, text", [
    (lambda _: ["events"], lambda rounds: session(ROUND * rounds)),
    (lambda many: ["replay", f"E40 I{many} E60 I{many}"], lambda _: DECK.encode()),
    (lambda many: ["run", "--sequential", "--budget", str(many)], lambda _: DECK.encode()),
], ids=("events", "replay", "run"))
def test_many_take_as_much_as_few(
    failing: Failing, words: Callable[[int], list[str]], text: Callable[[int], bytes]
) -> None:
    (few, number), (many, other) = (failing.allocations(words(it), text(it)) for it in (FEW, MANY))
    assert few.status in (0, 5) and many.status in (0, 5) and number == other

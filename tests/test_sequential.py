"""Draws decks, runs each with and without `--sequential`, and replays the logs of both runs. Then it runs decks with
requests of both kinds by threads, and reads in the log when each was made.

The drawn decks are those of tools/random-deck. About half of them get one to five more requests for exchanges, a fifth
of these `free`. Each deck is run with the whole budget, and with one of 1 to 399 instructions. Their cases have the
numbers of their seeds. By docs/use/formats.md:

- The replay of a run's log prints the run's dump, and ends with its status.
- Without a `free` request and without an address fault, both runs print the same and end with the same status. After an
  address fault, `run` may have issued more instructions, and from there on the logs may differ. With `--sequential`
  nothing is issued after the fault.
- With `--sequential`, a `free` request is made as if it said `after 0` and came last in the deck. So `run` prints the
  same for a deck that has such lines instead.
- With `--sequential`, the requests are made in their order, each exchange as soon as it is due or at the end of the
  word. The run ends by its budget, a halt or a fault.

The test also fails if too few of the runs have requests of either kind, or a halt, an address fault or the end of their
budget in the middle of a word.

All packages of the other decks have the same program, a word of two passes and a jump to itself. It ends only with its
budget, and an exchange can be made after each third instruction:

- Each request is made once: those after a number of instructions in the order of these numbers and then of the deck,
  the free ones in the deck's order.
- The exchange of an `ask N after K` is made at the end of the word in which K instructions were issued.
- If another request waited then, it is asked for as soon as that exchange was made. So at most one of the free requests
  comes between K and its exchange.

Run it after a change of what a run computes, of its requests, or of its end.
"""

from __future__ import annotations

import re
from collections import Counter
from dataclasses import dataclass
from functools import cached_property
from itertools import pairwise, zip_longest
from typing import Any, Sequence

import pytest
from running import Ended, Runner

from cdc6600.checks.drawn_requests import RequestingDeck
from cdc6600.limits import DEFAULT_BUDGET, PACKAGE_WORDS
from cdc6600.shared.decks import log_of

# The first seed of each case, and how many it has. Each has enough of all that the runs should have.
FIRST, SEEDS = (0, 110, 220, 330, 550), 110
# A word has four instructions at most, so this many may come between a request that is due and its exchange.
MOST_WAITED = 3
# The statuses of a run that came to its end.
ENDS = (0, 3, 4, 5)
# What a run with `--sequential` may have, and how many of the runs of a case have it at least.
AFTER, FREE = "a request after instructions", "a free request"
HALTED, FAULTED, CUT = "a halt in mid word", "an address fault in mid word", "the end of their budget in mid word"
WAITING = "a request that waits at their end"
LEAST = {AFTER: 80, FREE: 30, HALTED: 50, FAULTED: 3, CUT: 30, WAITING: 4}
# The budget of the decks with requests of both kinds, the instructions of a word of them, and how often each is run.
BUDGET, ISSUES_OF_A_WORD, TIMES = 30000, 3, 5
# How many instructions are issued before each request, and how many requests are free.
KINDS: tuple[tuple[list[int], int], ...] = (
    ([2 * number for number in range(34)], 30), ([0] * 4 + [1] * 4, 8), ([7], 1), ([0], 1), ([5, 4], 2), ([], 30),
    ([9] * 34, 0),
)


@dataclass(frozen=True)
class End:
    """The end of a run that came to its end: its log, and the state of the machine."""

    ran: Ended

    @classmethod
    def of(cls, ran: Ended) -> End:
        """The end of a run; it has a log, and nothing is told."""
        assert ran.status in ENDS and not ran.told and log_of(ran.printed.encode()) is not None, ran
        return cls(ran)

    @cached_property
    def log(self) -> str:
        """Its log."""
        return str(log_of(self.ran.printed.encode()))

    @cached_property
    def entries(self) -> list[tuple[str, str]]:
        """The entries of its log: a letter and a number."""
        return re.findall(r"([EI])(\d+)", self.log)

    @cached_property
    def issued(self) -> int:
        """How many instructions it issued."""
        return sum(int(number) for kind, number in self.entries if kind == "I")

    def value(self, name: str) -> str:
        """What the dump has after a name, up to the next name."""
        found = re.search(rf"^(?:.* )?{name} (.*?)(?: [A-Z]+ .*)?$", self.ran.printed, re.MULTILINE)
        assert found
        return found[1]

    @cached_property
    def is_mid_word(self) -> bool:
        """Whether it is in the middle of a word, where an exchange is refused as E25 while the program runs."""
        return self.value("HELD") != "none"

    @cached_property
    def is_halted(self) -> bool:
        """Whether the machine is halted."""
        return self.value("HALT") != "running"

    @cached_property
    def is_faulted(self) -> bool:
        """Whether the machine has an address fault."""
        return self.value("FAULT") != "none"

    @cached_property
    def exchanges(self) -> list[tuple[int, int]]:
        """The package of each exchange, with the number of instructions before it."""
        count, found = 0, []
        for kind, number in self.entries:
            if kind == "I":
                count += int(number)
            else:
                found.append((int(number, 8), count))
        return found


class Tried:
    """A drawn deck that is run with the whole budget or with a drawn one."""

    def __init__(self, program: Runner, deck: Any, budget: int | None = None) -> None:
        self.program, self.deck, self.budget = program, deck, budget or DEFAULT_BUDGET
        self.options = ["--budget", str(budget)] if budget else []
        self.end = End.of(self.run("--sequential"))

    def run(self, *options: str, deck: Any = None) -> Ended:
        """Runs the deck, or another one."""
        return self.program("run", *options, *self.options, given=(deck or self.deck).text)

    def replay(self, log: str) -> Ended:
        """Replays a log on the deck."""
        return self.program("replay", log, given=self.deck.text)

    def compare(self) -> None:
        """Compares both runs with each other, and with what is known of them."""
        threaded = End.of(self.run())
        for end in dict.fromkeys((self.end, threaded)):
            assert self.replay(end.log) == end.ran
        wanted = End.of(self.run(deck=self.deck.bound)) if self.deck.has_free else threaded
        if not self.has_more_after_fault(wanted):
            assert self.end.ran == wanted.ran
        self.look_at_exchanges()
        self.look_at_end()

    def has_more_after_fault(self, wanted: End) -> bool:
        """Whether a run by threads differs from this one only in the instructions that it issued after an address
        fault."""
        pairs = zip_longest(self.end.entries, wanted.entries, fillvalue=("", "0"))
        at, (own, other) = next(((at, it) for at, it in enumerate(pairs) if it[0] != it[1]), (0, (("", ""), ("", ""))))
        is_longer = own[0] == other[0] == "I" and int(own[1]) < int(other[1])
        return is_longer and self.ends_with_fault(self.end.entries[: at + 1])

    def ends_with_fault(self, entries: Sequence[tuple[str, str]]) -> bool:
        """Whether the last instruction of the beginning of a log has an address fault, the first one since the last
        exchange."""
        *others, (kind, number) = entries
        shorter = [*others, (kind, str(int(number) - 1))] if number != "1" else others
        return self.is_faulted_after(entries) and not self.is_faulted_after(shorter)

    def is_faulted_after(self, entries: Sequence[tuple[str, str]]) -> bool:
        """Whether the machine has an address fault after the beginning of a log."""
        return End(self.replay(" ".join(kind + number for kind, number in entries) or "none")).is_faulted

    def look_at_exchanges(self) -> None:
        """The exchanges are made in the order of the requests, each as soon as it may be."""
        wanted, made = self.deck.in_order, self.end.exchanges
        assert [package for package, _ in made] == [it.package for it in wanted[: len(made)]], self.end.log
        for request, (before, count) in zip(wanted, pairwise([0, *(count for _, count in made)])):
            most = before if request.after <= before else request.after + MOST_WAITED
            assert max(request.after, before) <= count <= most, f"{request}: {self.end.log}"
        assert self.is_cut or not self.is_left, f"{wanted[len(made)]} isn't made: {self.end.log}"

    def look_at_end(self) -> None:
        """The machine goes on until it is halted or faulted, or its budget is used up."""
        end = self.end
        assert end.issued <= self.budget and (end.is_halted or end.is_faulted or end.issued == self.budget), end.log
        assert not end.is_faulted or self.ends_with_fault(end.entries), f"it goes on after its address fault: {end.log}"

    @property
    def is_left(self) -> bool:
        """Whether the next request that isn't made was due."""
        left = self.deck.in_order[len(self.end.exchanges) :]
        return bool(left) and left[0].after <= self.end.issued

    @property
    def is_cut(self) -> bool:
        """Whether the budget ended in the middle of a word."""
        end = self.end
        return end.issued == self.budget and end.is_mid_word and not (end.is_halted or end.is_faulted)

    @property
    def kinds(self) -> list[str]:
        """What the run has. Free requests are made first, so each run has all of its deck."""
        end, made = self.end, self.deck.in_order[1 : len(self.end.exchanges)]
        has = {
            AFTER: any(it.after for it in made), FREE: self.deck.has_free, HALTED: end.is_mid_word and end.is_halted,
            FAULTED: end.is_mid_word and end.is_faulted, CUT: self.is_cut, WAITING: self.is_left,
        }
        return [kind for kind, holds in has.items() if holds]


@pytest.mark.parametrize("first", FIRST)
def test_both_runs(program: Runner, first: int) -> None:
    kinds: Counter[str] = Counter()
    for seed in range(first, first + SEEDS):
        deck = RequestingDeck.drawn(seed)
        for budget in (None, deck.budget(seed)):
            tried = Tried(program, deck, budget)
            try:
                tried.compare()
            except AssertionError as fault:
                raise AssertionError(f"seed {seed}, budget {budget}:\n{deck.text.decode()}\n{fault}") from fault
            kinds.update(tried.kinds)
    assert not {kind: kinds[kind] for kind, least in LEAST.items() if kinds[kind] < least}, "too few: change the seeds"


# ---- requests of both kinds ----


def deck_of(after: Sequence[int], free: int) -> tuple[str, list[int], list[int]]:
    """The deck with these requests, and the packages of both kinds."""
    packages = [PACKAGE_WORDS * number for number in range(1 + len(after) + free)]
    lines = ["core 2048"]
    for package in packages:
        lines += [f"at {package + 1:o}", "word 3000000000000000", "word 1000000000000"]
    lines += ["at 3000", "code NO; NO; JP B0+0", "start 0"]
    due, others = packages[1 : 1 + len(after)], packages[1 + len(after) :]
    lines += [f"ask {package:o} after {number}" for package, number in zip(due, after)]
    lines += [f"ask {package:o} free" for package in others]
    return "\n".join([*lines, "end", ""]), due, others


@pytest.mark.parametrize("turn", range(TIMES))
@pytest.mark.parametrize("after, free", KINDS, ids=str)
def test_both_kinds(program: Runner, after: list[int], free: int, turn: int) -> None:
    deck, due, others = deck_of(after, free)
    ran = program("run", "--budget", str(BUDGET), given=deck)
    assert ran.status == 5
    end = End.of(ran)
    assert program("replay", end.log, given=deck).printed == ran.printed
    made, order = end.exchanges, [package for package, _ in end.exchanges]
    wanted = sorted(zip(after, due), key=lambda ask: ask[0])
    assert order[:1] == [0] and sorted(order) == [0, *due, *others], end.log
    assert [package for package in order if package in due] == [package for _, package in wanted]
    assert [package for package in order if package in others] == others
    for number, package in wanted:
        place, word_end = order.index(package), -(-number // ISSUES_OF_A_WORD) * ISSUES_OF_A_WORD
        assert made[place][1] == word_end, f"{package:o}: {end.log}"
        between = [it for it, count in made[1:place] if it in others and count == word_end]
        assert len(between) <= 1, f"{package:o}: {end.log}"

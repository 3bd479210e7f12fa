"""Runs decks and a session that are as large as they may be, and compares what is printed with what is known of it.

A deck of 131,072 words, each placed, goes through `list`, `run` with and without `--sequential`, `replay` and `events`;
each word is shown, in 64 ranges. Word a of it has the value a, but for the field length in word 2. The package at 0 so
has B1 to B7 of 1 to 7 and X0 to X7 of 8 to 15, and its program stops by its first instruction. A session makes
1,000,000 requests, each with its exchange, which is as many as there may be; one more is refused as `E3 budget`.
Another makes 1,000,000 peripheral accesses, as many as there may be, and `replay` goes through as many as an argument
has room for, and through the largest logs after a deck. Each command works with a stack of 96 KiB. A deck and the
session after it have 10,000,000 lines at most; `tools/check mutations` lists decks of so many.

Run it after a change of limits, or of what reads, keeps or prints them.
"""

from __future__ import annotations

from itertools import zip_longest
from typing import Sequence

import pytest
from running import Ended, Runner, called

from cdc6600.limits import MOST_ACCESSES, MOST_LINES, MOST_REQUESTS, MOST_SHOWS, MOST_WORDS
from cdc6600.shared.decks import deck
from cdc6600.shared.program import followed

# The largest sessions take longer than other input.
MINUTES = 30
RANGE = MOST_WORDS // MOST_SHOWS
# An argument has at most 131,071 bytes.
REPLAYED = 13_000
# The stack in KiB that is enough for each command.
STACK = 96
STOPPED = 1 << 36
WORDS = [MOST_WORDS << 36 if place == 2 else place for place in range(MOST_WORDS)]
# What an exchange leaves in the package's words: the registers at boot, all zero, and that it was stopped.
EXCHANGED = [STOPPED if place == 7 else 0 for place in range(16)] + WORDS[16:]
SHOWS = [f"show {first:o} {first + RANGE - 1:o}" for first in range(0, MOST_WORDS, RANGE)]
DECK = [f"core {MOST_WORDS}", "at 0", *[f"word {word:o}" for word in WORDS], "start 0", *SHOWS, "end"]
# A small deck of three lines.
SMALL = "core 32\nstart 0\nend\n"
READ = "ok 00000000000000000007"


def text_of(lines: Sequence[str]) -> str:
    """The text of some lines."""
    return "\n".join([*lines, ""])


def compare(came: Ended, wanted: Ended) -> None:
    """Compares two ends. A difference of long texts is told by its first line, since pytest would look for all."""
    assert (came.status, came.told) == (wanted.status, wanted.told)
    if came.printed != wanted.printed:
        pairs = enumerate(zip_longest(came.printed.split("\n"), wanted.printed.split("\n")), 1)
        pytest.fail(next(f"line {at} is {one}, and not {other}" for at, (one, other) in pairs if one != other))


def words_of(words: Sequence[int]) -> list[str]:
    """The lines of a dump with some words."""
    return [f"M {place:06o} {word:020o}" for place, word in enumerate(words)]


# The dump of the stopped machine, whose registers are the package's.
DUMP = [
    "P 000000 PARCEL 0 HELD 00000000000000000000", "HALT stop FAULT none", f"RA 000000 FL {MOST_WORDS:06o} EM 000000",
    f"A {' '.join(['000000'] * 8)}", "B " + " ".join(f"{value:06o}" for value in (0, 1, 0, 3, 4, 5, 6, 7)),
    *[f"X{value} {value + 8:020o}" for value in range(8)], *words_of(EXCHANGED), "LOG E0 I1",
]


@pytest.mark.parametrize("words, schedule, answers", [
    ("run", [], []), ("run --sequential", [], []), ("replay E0_I1", [], []),
    ("events", ["ask 0", "exchange", "issue", "end"], ["ok"] * 3),
])
def test_all_words(program: Runner, words: str, schedule: list[str], answers: list[str]) -> None:
    came = program(*[it.replace("_", " ") for it in words.split()], given=text_of([*DECK, *schedule]), minutes=MINUTES)
    compare(came, Ended(0, text_of([*answers, *DUMP])))


def test_list_of_all_words(program: Runner) -> None:
    came = program("list", given=text_of(DECK), minutes=MINUTES)
    begun = Ended(came.status, text_of([line[:28] for line in came.lines]), came.told)
    compare(begun, Ended(0, text_of([f"{place:06o} {word:020o} " for place, word in enumerate(WORDS)])))


def test_most_requests(program: Runner) -> None:
    asked = ["ask 0", "exchange"] * MOST_REQUESTS
    came = program("events", given=text_of([*DECK, *asked, "ask 0", "end"]), minutes=MINUTES)
    lines = came.lines
    # After one request more only the words and the log of the dump are known.
    known = [*lines[: len(asked) + 1], *lines[-MOST_WORDS - 1 :]]
    wanted = [*["ok"] * len(asked), "E3 budget", *words_of(WORDS), f"LOG {' '.join(['E0'] * MOST_REQUESTS)}"]
    compare(Ended(came.status, text_of(known), came.told), Ended(0, text_of(wanted)))


# ---- peripheral accesses ----


def ended(program: Runner, written: int, further: str) -> tuple[Ended, list[str]]:
    """The end of a session in which a word is written so often and read each time, and further lines follow, without
    its dump; and the dump's lines."""
    session = SMALL + "ppwrite 10 7\nppread 10\n" * written + further
    came = program("events", given=session, minutes=MINUTES)
    return Ended(came.status, text_of(came.lines[:-14]), came.told), came.lines[-14:]


def answers(written: int, *further: str) -> Ended:
    """The end of such a session, without its dump."""
    return Ended(0, f"ok\n{READ}\n" * written + text_of(further))


def test_most_accesses(program: Runner) -> None:
    """Of the refused accesses, one too many is refused first of all."""
    written = MOST_ACCESSES // 2
    came, dump = ended(program, written, "ppread 10\nppwrite 10 1\nppread 777777\nask 0\nexchange\nend\n")
    compare(came, answers(written, *["E3 budget"] * 3, "ok", "ok"))
    compare(Ended(0, dump[-1]), Ended(0, f"LOG {'W10=7 R10 ' * written}E0"))


def test_refused_accesses_do_not_count(program: Runner) -> None:
    written = MOST_ACCESSES // 2 - 1
    further = "ppread 777777\nppwrite 777777 1\nppread 10\nppread 10\nppread 10\nend\n"
    came, _ = ended(program, written, further)
    compare(came, answers(written, *["E27 peripheral range"] * 2, READ, READ, "E3 budget"))


def test_replayed_accesses(program: Runner) -> None:
    came, dump = ended(program, REPLAYED, "ask 0\nexchange\nend\n")
    compare(came, answers(REPLAYED, "ok", "ok"))
    compare(program("replay", dump[-1].removeprefix("LOG "), given=SMALL), Ended(5, text_of(dump)))


# ---- logs, stacks and lines ----


@pytest.mark.parametrize("entry, most, status", [("E0", MOST_REQUESTS, 5), ("W10=7", MOST_ACCESSES, 0)])
def test_following_logs(program: Runner, entry: str, most: int, status: int) -> None:
    """The largest logs, which no argument can hold."""
    def replayed(entries: list[str]) -> Ended:
        text = followed(SMALL.encode(), " ".join(entries))
        return program("replay", "--log-follows", given=text, minutes=MINUTES)

    entries = [entry] * most
    came = replayed(entries)
    compare(Ended(came.status, came.lines[-1], came.told), Ended(status, f"LOG {' '.join(entries)}"))
    compare(replayed([*entries, entry]), Ended(2, told="cdc6600: bad log\n"))


@pytest.mark.parametrize("words", ("run", "run --sequential", "replay E40_I6", "list", "events"))
def test_small_stack(program: Runner, words: str) -> None:
    """No more stack than docs/use/formats.md says is enough."""
    text, split = deck("two-adds").text, [it.replace("_", " ") for it in words.split()]
    limited = ["sh", "-c", 'ulimit -s "$1" && shift && exec "$@"', "sh", str(STACK), program.path, *split]
    assert called(*limited, given=text).status == program(*split, given=text).status


def test_most_lines(program: Runner) -> None:
    """Lines count from the deck's first on. Each line of a session has its answer at once."""
    issues, answer = MOST_LINES - 4, "E1 halted stop\n"
    session, answered = SMALL + "issue\n" * issues, answer * issues
    dump = program("events", given=f"{SMALL}end\n").printed
    too_many = Ended(1, told=f"cdc6600: E20 line {MOST_LINES + 1}: lines\n")
    for further, wanted in (
        ("end\n", Ended(0, answered + dump)), ("", Ended(1, answered, f"cdc6600: E20 line {MOST_LINES}: no end\n")),
        *((f"issue\n{last}", Ended(1, answered + answer, too_many.told)) for last in ("", "end\n")),
    ):
        compare(program("events", given=session + further, minutes=MINUTES), wanted)
    longest = "core 32\nstart 0\n" + "at 0\n" * (MOST_LINES - 3) + "end\n"
    for further in ("", "end\nend\n"):
        compare(program("events", given=longest + further, minutes=MINUTES), too_many)

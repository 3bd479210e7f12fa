"""Runs and lists each deck of decks/, makes the events of each session, and compares what is printed and the exit
status with the files beside it, which decks/README.md names.

- Each deck is run with and without `--sequential`, and the log of its dump is replayed. If the log of a run by threads
  depends on how these fall, it is one of the deck's logs, and what is printed is what its replay prints.
- The rows of the pages refusals.md and requests.md are tried, those of refusals at a terminal too.
- The timeline of each session and the picture docs/use/conflicts.svg are drawn and compared.
- The library makes each drain in the table of decks/README.md, and the number of the drain's events is compared.
- The worked schedules of crates/schedule_tests are made as sessions. They are constants in Rust, whose numbers, texts,
  lists and pairs are written as in Python, so they are read as Python.

Run it after a change of what is computed or printed, or of what an event does or answers.
"""

from __future__ import annotations

import ast
import re
from typing import Any, Iterator, Sequence

import pytest
from running import Ended, Runner, called, text_of, told_at_terminal

from cdc6600.asking.library import declarations, library
from cdc6600.shared.decks import (
    PAGES, Deck, Session, deck, decks, drained_by_sessions, log_of, rows_of, session, sessions,
)
from cdc6600.shared.program import ROOT

THREADED, SEQUENTIAL = RUNS = (("run",), ("run", "--sequential"))
PICTURE = ROOT / "docs/use/conflicts.svg"
SCHEDULES = sorted((ROOT / "crates/schedule_tests/src").glob("*.rt"))
TABLE = re.compile(r"pub const SCHEDULES: \[Schedule; (\d+)\] = (\[.*?^\]);", re.DOTALL | re.MULTILINE)
RUST_TEXT = r'("(?:[^"\\]|\\.)*")'


def ends_of(it: Deck) -> Iterator[tuple[Sequence[str], Ended]]:
    """The commands that are tried with a deck, each with its one end."""
    if it.dump is None:
        refused = Ended.of(it.status, told=it.told)
        yield from ((words, refused) for words in (*RUNS, ["list"], ["events"], ["replay", "none"]))
        return
    wanted = Ended.of(it.status, it.dump, it.told)
    if not it.logs:
        yield (*THREADED, *it.arguments), wanted
    yield (*SEQUENTIAL, *it.arguments), wanted
    yield ("replay", log_of(it.dump) or ""), wanted
    if it.listing is not None:
        yield ["list"], Ended.of(0, it.listing, it.told)


@pytest.mark.parametrize(
    "it, words, wanted",
    [pytest.param(it, *case, id=f"{it.name} {case[0][:2]}") for it in decks() for case in ends_of(it)],
)
def test_deck(program: Runner, it: Deck, words: Sequence[str], wanted: Ended) -> None:
    assert program(*words, given=it.text) == wanted


def race(
    program: Runner, words: Sequence[str], text: bytes, logs: Sequence[str], status: int, told: bytes = b""
) -> None:
    """Makes a run whose log is one of these, and compares it with the replay of its log."""
    came = program(*words, given=text)
    log = log_of(came.printed.encode()) or ""
    assert (came.status, came.told) == (status, text_of(told)) and log in logs
    assert program("replay", log, given=text) == came


@pytest.mark.parametrize("it", [it for it in decks() if it.dump is not None and it.logs], ids=str)
def test_raced_deck(program: Runner, it: Deck) -> None:
    race(program, [*THREADED, *it.arguments], it.text, it.logs, it.status, it.told)


@pytest.mark.parametrize("it", sessions(), ids=str)
def test_session(program: Runner, it: Session) -> None:
    assert it.answers is not None and it.timeline is not None, "there is no file with answers or a timeline"
    assert program("events", given=it.text) == Ended.of(0, it.answers)
    assert called("tools/timeline", it.file, it.file.with_suffix(".answers")) == Ended.of(0, it.timeline)


@pytest.mark.usefixtures("program")
@pytest.mark.parametrize("name, events", drained_by_sessions().items())
def test_drain(name: str, events: int) -> None:
    it = session(name)
    *made, last = it.schedule
    with declarations().Machine(library()) as machine:
        machine.boot(it.text)
        for event in made:
            machine.event(event.encode())
        assert (last, machine.is_drained(), machine.drain()) == ("drain", False, events)


def test_picture() -> None:
    assert called("tools/timeline", "--svg", "decks/sessions/conflicts.session") == Ended.of(0, PICTURE.read_bytes())


@pytest.mark.parametrize("text, fault, position", rows_of(PAGES / "refusals.md"))
def test_refusal(program: Runner, text: str, fault: str, position: str) -> None:
    shown = text.replace("\\n", "\n").replace("\\r", "\r").encode()
    told = f"cdc6600: E20 line {fault}\n"
    assert program("run", given=shown) == Ended(1, told=told)
    column = f"cdc6600: column {position}\n" if position else ""
    assert told_at_terminal([program.path, "run"], shown) == told + column


@pytest.mark.parametrize("run", RUNS, ids=" ".join)
@pytest.mark.parametrize("lines, budget, status, logs", rows_of(PAGES / "requests.md"))
def test_request(program: Runner, run: Sequence[str], lines: str, budget: str, status: str, logs: str) -> None:
    text = deck("four-packages").text.removesuffix(b"end\n") + f"{lines.replace('; ', chr(10))}\nend\n".encode()
    of_threads = logs.split(", ")
    race(program, [*run, "--budget", budget], text, of_threads if run == THREADED else of_threads[-1:], int(status))


# ---- worked schedules ----


def as_python(rust: str) -> str:
    """The text of a Rust constant as one of Python's."""
    parts = re.split(RUST_TEXT, rust, flags=re.DOTALL)
    parts[1::2] = [re.sub(r"\\\n\s*", "", part) for part in parts[1::2]]
    others = [re.sub(r"\b(Schedule|Dump) \{", "{", part).replace("&[", "[") for part in parts[::2]]
    parts[::2] = [re.sub(r"(\w+): ", r'"\1": ', part) for part in others]
    return "".join(parts)


def tables() -> list[tuple[int, list[dict[str, Any]]]]:
    """The tables of schedules, each with the number of rows that its type has."""
    found = [it for source in SCHEDULES for it in TABLE.findall(source.read_text(encoding="utf-8"))]
    return [(int(number), ast.literal_eval(as_python(table))) for number, table in found]


def dump_of(dump: Any) -> str:
    """The text of a dump: its first lines, the registers, and the rest. A register that isn't named is +0."""
    values = dict(dump["registers"])
    rows = [f"{letter} " + " ".join(values.get(f"{letter}{n}", "").zfill(6) for n in range(8)) for letter in "AB"]
    rows += [f"X{n} {values.get(f'X{n}', '').zfill(20)}" for n in range(8)]
    return "\n".join([f"{dump['begins']}{rows[0]}", *rows[1:], f"{dump['shows']}LOG {dump['log']}\n"])


def name_of(schedule: dict[str, str]) -> str:
    """The name of a schedule."""
    return schedule["name"]


def test_all_schedules_are_read() -> None:
    assert tables() and [number for number, _ in tables()] == [len(rows) for _, rows in tables()]


@pytest.mark.parametrize("it", [row for _, rows in tables() for row in rows], ids=name_of)
def test_schedule(program: Runner, it: dict[str, Any]) -> None:
    session = it["deck"] + "".join(f"{event}\n" for event, _ in it["steps"]) + "drain\n"
    wanted = "".join(f"{answer}\n" for _, answer in it["steps"]) + dump_of(it["dump"])
    assert program("events", "--budget", str(it["budget"]), given=session) == Ended(0, wanted)

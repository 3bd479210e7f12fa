"""Tests tools/where: which lines name a refusal, what it finds of a label and of a word, and how it ends.

Run it after a change of that tool, of `tools/cdc6600/rules`, or of what its tests name.
"""

from __future__ import annotations

from functools import cache

import pytest
from running import Ended, called

from cdc6600.rules.labels import LABELS
from cdc6600.rules.mentions import HEADINGS
from cdc6600.shared.program import ROOT

VARIANTS = "use Rattle.instructions.specs.declared.refusal.Refusal.TheVariants"
# What some line has that the tool prints of a rule, by its heading.
FOUND = {
    "E14": {
        "definition": "in_flight/specs/Pending.antt", "contract": "Reference::keeps_order",
        "code": "Err(Refusal::OlderAtAddress)", "proof": "hopper/proofs/hopper/Hopper/acceptable/Answers.antt:1:",
        "wrong body": "hopper/wrong-bodies/load_before_an_older_store.edit",
        "test": "core_tests/src/hopper_tests.rt", "deck": "decks/sessions/one-word.answers",
        "tool": "checks/judging_by_rules.py", "page": "docs/proof/calls.md",
    },
    "bank": {"rule": "The bank of an address", "test": "bank_of(*address)", "deck": "one-bank.answers"},
}


@cache
def where(*words: str) -> Ended:
    """How the tool ends."""
    return called("tools/where", *words)


def found_of(rule: str) -> dict[str, list[str]]:
    """The lines that the tool prints of a rule, by their headings."""
    return {heading: lines for heading, *lines in map(str.splitlines, where(rule).printed.split("\n\n"))}


@pytest.mark.parametrize("line", ["E20 line 1: first", "E19 E20 E21", "**E20**", "E19 to E22"])
def test_label(line: str) -> None:
    assert LABELS["E20"].is_in(line)


@pytest.mark.parametrize("line", ["LOG E20", "LOG E0 I4 E20 I6", "replay 'E20 W10=7'", "E200", "E2"])
def test_no_label(line: str) -> None:
    assert not LABELS["E20"].is_in(line)


@pytest.mark.parametrize("ending, name", [
    (" as refusals", "refusals.Read"), (".{Read}", "Read"), (".{Write, Read as NoRead}", "NoRead"), (".{Write}", None),
])
def test_name_of_a_variant(ending: str, name: str | None) -> None:
    found = LABELS["E22"].name_in(VARIANTS + ending)
    assert bool(found) == bool(name)
    assert not found or (found.findall(f"= Err {name}") == [name] and not found.search(f"= Err Un{name}"))


def test_each_refusal_has_a_label_and_every_heading() -> None:
    assert [*LABELS] == [f"E{number}" for number in range(1, 28)]
    assert [*found_of("E14")] == [*HEADINGS]


@pytest.mark.parametrize("rule, heading", [(rule, heading) for rule, its in FOUND.items() for heading in its])
def test_found(rule: str, heading: str) -> None:
    assert any(FOUND[rule][heading] in line for line in found_of(rule)[heading])


def test_lines_are_where_they_are_said_to_be() -> None:
    for path, number, text in (line.strip().split(":", 2) for line in found_of("E14")["tool"]):
        said = (ROOT / path).read_text(encoding="utf-8").splitlines()[int(number) - 1]
        assert said.strip().startswith(text.strip().removesuffix(" .."))


@pytest.mark.parametrize("words, status", [([], 2), ([""], 2), (["E1", "E2"], 2), (["--help"], 0)], ids=str)
def test_status(words: list[str], status: int) -> None:
    assert where(*words).status == status


@pytest.mark.parametrize("word, near", [("E28", "E27"), ("hoper", "hopper")])
def test_unknown_rule(word: str, near: str) -> None:
    ended = where(word)
    assert (ended.status, ended.printed, ended.told.count("\n")) == (1, "", 1)
    assert near in ended.told.partition("near it: ")[2]

"""Tries tools/assemble, and the other tools with source programs.

- Each instruction of docs/use/instructions.md, with several registers and values, and each of the listings of decks/:
  assembled and then listed by the program it has the same text, and the words of --listing are those of the program.
- The sources of decks/pages/bad-sources.md have the faults that stand beside them, and no deck. Those of
  decks/pages/good-sources.md have the words and decks that stand beside them.
- The programs of decks/source/ print the dumps beside them, and --listing shows their lines and words.
- The short forms are those of docs/use/instructions.md, and give the deck of the texts for which they stand.
- Each tool that takes a deck does with a source program what it does with its deck, and tells its first fault.
- A session of a source program is shown with the source line of each issue, by tools/beside and on a page, and with no
  lines of another program.
- Further errors than the first 20 are counted, a file that can't be read gives a line, and a reader that leaves or a
  full disk ends the tool as it should.

Run it after a change of that tool, of docs/use/instructions.md, or of docs/use/tools.md.
"""

from __future__ import annotations

import json
import re
from operator import attrgetter
from pathlib import Path
from typing import Sequence

import pytest
from running import Ended, Runner, called

from cdc6600.assembling.short_forms import OF_OTHERS, TABLE, each_short_form
from cdc6600.checks.sources import (
    BAD, FAULTY, GOOD, LISTED, PLACED, SHORT, SOURCES, WHOLE, each_text, of_all_texts, of_short_forms,
)
from cdc6600.drawing.page import DATA
from cdc6600.shared.decks import cells_of
from cdc6600.shared.instructions import FIELDS, PAGE, ROWS
from cdc6600.shared.program import ROOT

TOOL, REFERENCE = "tools/assemble", 0o100
# No stored program has more instructions. One that is assembled wrongly may have no end.
BUDGET = ("--budget", "2000")
FAULT = "2:3: 'FX2 X1+X1' is floating point, which isn't implemented"
# What each tool is called with; FOLDER stands for a folder of its own, and PROGRAM for the program.
TOOLS: dict[str, list[str]] = {
    "schedule": ["--summary"], "explore": [], "operate": ["--plain"], "trace": [], "compare": ["PROGRAM replay"],
    "gallery": ["FOLDER/pages"], "run-jobs": ["FOLDER/jobs"], "timeline": [], "beside": [],
}
TYPED = "next\nnext\nnext\nquit\nquit\n"
# A source program, and the line of each instruction that is issued: none for the passes that fill a word.
LINED, LINES = "START  SX1 2\nLOOP   SX1 X1-1\n       NZ  X1,LOOP\n       PS\n", [1, 0, 0, 2, 3, 2, 3, 4]
# A source with each kind of line, and its listing.
EACH_KIND = "* A comment\nSTART SX1 B0+2\n NO  mid word\n SX2 B0+3\n\nA DATA 5,6\nB BSS 2\nC EQU 4\nD\n SHOW A"
LISTING = [
    " " * 28 + "* A comment", "000000 71100000024600046000 START SX1 B0+2", " " * 28 + " NO  mid word",
    "000001 71200000034600046000  SX2 B0+3", "", "000002 00000000000000000005 A DATA 5,6",
    "000003 00000000000000000006", "000004                      B BSS 2", " " * 28 + "C EQU 4",
    "000006                      D", " " * 28 + " SHOW A",
]
# Calls in a shell, where FOLDER stands for a folder; the status, and the last line that is told.
CALLS = (
    ("tools/assemble decks/nosuch", 2, "tools/assemble: decks/nosuch: No such file or directory"),
    ("tools/assemble decks", 2, "tools/assemble: decks: Is a directory"),
    ("env -u PYTHONUNBUFFERED tools/assemble decks/source/sorting.source > /dev/full", 2,
     "tools/assemble: standard output: No space left on device"),
    ("tools/assemble --listing decks/source/sorting.source >&-", 2, "tools/assemble: standard output is closed"),
    ("tools/assemble FOLDER/long.source | head -1 > FOLDER/head; exit ${PIPESTATUS[0]}", 141, ""),
    ("tools/assemble - < /dev/null", 1,
     "standard input:1:1: there is no label START: expected one where the program begins"),
    ("tools/assemble", 2, "assemble: error: the following arguments are required: FILE"),
    ("tools/assemble --list x y", 2, "assemble: error: unrecognized arguments: y"),
    ("tools/assemble --help", 0, ""),
)


def assembled(source: str, *options: str) -> Ended:
    """How the tool ends with a source as its input."""
    return called(TOOL, *options, "-", given=source)


def deck_of(source: str) -> str:
    """The deck of a source without faults."""
    ended = assembled(source)
    assert (ended.status, ended.told) == (0, "")
    return ended.printed


def words_of_listing(lines: Sequence[str]) -> dict[int, str]:
    """The words of a listing of the tool, by their addresses in memory."""
    found = [re.match("([0-7]{6}) ([0-7]{20})(?: |$)", line) for line in lines]
    return {int(it[1], 8) + REFERENCE: it[2] for it in found if it}


def listed(program: Runner, deck: str) -> dict[int, tuple[str, str]]:
    """The words and texts that the program lists of a deck, by their addresses in memory, without the package."""
    found = [line.groups() for line in map(LISTED.fullmatch, program("list", given=deck).lines) if line]
    return {int(at, 8): (word, text) for at, word, text in found if int(at, 8) >= REFERENCE}


def test_each_instruction(program: Runner) -> None:
    texts, source = each_text(), of_all_texts()
    came, listing = listed(program, deck_of(source)), assembled(source, "--listing")
    assert (listing.status, listing.told, len(came)) == (0, "", len(texts) + 1)
    ours = words_of_listing(listing.lines)
    for address, text in enumerate(texts, REFERENCE + 1):
        word, items = came[address]
        assert (re.sub("(; NO)*$", "", items), ours[address]) == (text, word)
    assert not [row.text for row in ROWS.values() if not any(row.pattern.fullmatch(text) for text in texts)]


@pytest.mark.parametrize("source, told", BAD)
def test_bad_source(source: str, told: str) -> None:
    lines = "".join(f"standard input:{line}\n" for line in told.split("\n"))
    assert assembled(source) == Ended(1, "", lines)


@pytest.mark.parametrize("source, words", PLACED)
def test_words(source: str, words: str) -> None:
    assert deck_of(f"START NO\n{source}").partition("at 100\n")[2].partition("\nstart 40\n")[0] == words


@pytest.mark.parametrize("source, deck", WHOLE)
def test_whole_source(program: Runner, source: str, deck: str) -> None:
    assert deck_of(source) == f"{deck}\n"
    accepted = program("list", given=f"{deck}\n")
    assert (accepted.status, accepted.told) == (0, "")


@pytest.mark.parametrize("file", sorted(SOURCES.glob("*.source")), ids=attrgetter("stem"))
def test_stored_program(program: Runner, file: Path) -> None:
    deck, source = called(TOOL, file), file.read_text(encoding="utf-8")
    assert (deck.status, deck.told) == (0, "")
    ended = Ended(0, file.with_suffix(".dump").read_text(encoding="ascii"))
    assert program("run", *BUDGET, given=deck.printed) == ended
    assert program("run", "--sequential", *BUDGET, given=deck.printed) == ended
    listing = called(TOOL, "--listing", file).lines
    assert words_of_listing(listing) == {at: word for at, (word, _) in listed(program, deck.printed).items()}
    shown = [line[28:] for line in listing if not re.fullmatch("[0-7]{6} [0-7]{20}", line)]
    assert shown == source.splitlines()


def test_page_of_short_forms() -> None:
    rows = [[cell.replace("`", "") for cell in cells] for cells in cells_of(PAGE, "Short forms in sources")[1:]]
    assert rows == [[text, ", ".join(forms)] for text, *forms in TABLE]


@pytest.mark.parametrize("form", [form for form, _ in each_short_form()] + [form for _, form in OF_OTHERS])
def test_short_form_is_tried(form: str) -> None:
    pattern = re.escape(re.sub("V.*", "K", form))
    pattern = FIELDS.sub(lambda name: ".+" if name[0] == "K" else "[0-7]", pattern)
    assert any(re.fullmatch(pattern, short) for short, _ in SHORT)


def test_short_forms() -> None:
    assert deck_of(of_short_forms(0)).splitlines() == deck_of(of_short_forms(1)).splitlines()


@pytest.mark.parametrize("tool", TOOLS)
def test_tool_with_source(program: Runner, tmp_path: Path, tool: str) -> None:
    def ended(name: str, text: str) -> Ended:
        """How the tool ends with a file, with the name of a deck where it names the file."""
        file, folder = tmp_path / name, tmp_path / f"folder-{name}"
        file.write_text(text, encoding="ascii")
        folder.mkdir()
        words = [word.replace("FOLDER", str(folder)).replace("PROGRAM", program.path) for word in TOOLS[tool]]
        came = called(f"tools/{tool}", *words, file, given=TYPED)
        return Ended(came.status, came.printed.replace(".source", ".deck"), came.told.replace(".source", ".deck"))

    assert ended("it.source", GOOD) == ended("it.deck", deck_of(GOOD))
    came = ended("bad.source", FAULTY)
    assert came.status in (1, 2) and came.told.count("\n") == 1
    assert came.told.rstrip().endswith(f"{tmp_path}/bad.deck:{FAULT}")


@pytest.fixture(name="lined")
def session_of_lined(program: Runner, tmp_path: Path) -> tuple[Path, Path]:
    """A source and its session."""
    source, session = tmp_path / "lined.source", tmp_path / "lined.session"
    source.write_text(LINED, encoding="ascii")
    session.write_text(called("tools/schedule", source).printed, encoding="ascii")
    return source, session


def test_lines_of_source(lined: tuple[Path, Path]) -> None:
    source, session = lined
    texts = [" ".join(line.split()) for line in LINED.splitlines()]
    beside = called("tools/beside", "--source", source, session)
    page = json.loads(DATA.findall(called("tools/timeline", "--html", "--source", source, session).printed)[0])
    of_issues = [line for line in beside.lines if line.startswith("issue ")]
    of_steps = [step["words"] for step in page["steps"] if step["event"] == "issue"]
    for shown, end in ((of_issues, ""), (of_steps, ".")):
        found = [re.search(r"line (\d): (.*)$", line) for line in shown]
        assert [int(it[1]) if it else 0 for it in found] == LINES
        assert [it[2] for it in found if it] == [f"{texts[it - 1]}{end}" for it in LINES if it]


@pytest.mark.parametrize("words", (["beside"], ["timeline", "--html"]))
def test_lines_of_another_source(lined: tuple[Path, Path], words: Sequence[str]) -> None:
    tool, *options = words
    other = SOURCES / "total.source"
    told = f"tools/{tool}: {other}: its deck isn't that of {lined[1]}\n"
    assert called(f"tools/{tool}", *options, "--source", other, lined[1]) == Ended(1, "", told)


def test_listing() -> None:
    came = assembled(EACH_KIND, "--listing")
    assert (came.status, came.lines, came.told) == (0, LISTING, "")


def test_many_faults() -> None:
    lines = assembled("START PS\n" + " BAD\n" * 25).told.splitlines()
    assert [line.split(":")[1] for line in lines] == [*map(str, range(2, 22)), " 5 more faults"]


def test_long_text() -> None:
    told = called(TOOL, "-", given=b"START PS\n \xff" + b"Q" * 50).told
    assert told.startswith("standard input:2:2: '\\xff" + "Q" * 28 + "..' is no")


@pytest.mark.parametrize("command, status, told", CALLS)
def test_call(tmp_path: Path, command: str, status: int, told: str) -> None:
    (tmp_path / "long.source").write_text("START PS\n" + " NO\n" * 100_000, encoding="ascii")
    came = called("bash", "-c", command.replace("FOLDER", str(tmp_path)), cwd=ROOT)
    assert (came.status, (came.told.splitlines() or [""])[-1]) == (status, told)

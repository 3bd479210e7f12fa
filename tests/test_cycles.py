"""Tries what tools/timeline and tools/gallery draw by minor cycles.

- A session with times that are given here is drawn as text, as a picture and as a page, and each mark has to be in the
  cycle that was counted by hand. The picture of a loop's page stays where it is at events of no reservation.
- The table of the reservations has the events and the minor cycles that were counted by hand, and what held each one:
  as text, as JSON, and on the pages of a session and of two schedules.
- The pictures begin at the first issue. Each unit has its reservations in the picture of the units. For paper the
  pictures are in pieces of 40 columns.
- The page that compares two schedules of a deck has to say of each what `tools/schedule --summary` says, by each
  policy: the instructions, the cycles, and the waits with their causes.
- tools/gallery writes the pages of sessions and decks that it is given, and only over pages of its own.
- Bad input has one line, and a status.

Run it after a change of those tools, or of `tools/cdc6600/timing`.
"""

from __future__ import annotations

import json
import re
import xml.etree.ElementTree as ET
from collections import Counter
from pathlib import Path
from typing import Any, Iterator, NamedTuple, Sequence

import pytest
from running import called
from test_scheduling import BANK, DECK

from cdc6600.drawing.following import RESERVED
from cdc6600.drawing.forms import BAR_RISE, COLOURS
from cdc6600.drawing.page import DATA
from cdc6600.drawing.units import NAMES
from cdc6600.shared.decks import FOLDER, deck, session
from cdc6600.shared.program import ROOT
from cdc6600.timing.scheduling import POLICIES, TIMED

CONFLICTS, ONE_BANK = (str(session(name).file) for name in ("conflicts", "one-bank"))
TIMES = "issue15 1\nissue30 2\nboolean 3\nshift 3\nlongadd 4\nincrement 3\ndivide 8\nuntaken 5\ntaken 8\nhopper 1\n" \
    "access 5\nbank 10\nexchange 0\n"
# The cycles of the events of the session conflicts by these times. The increments of 30 bits are issued at 0 and 2, the
# sum at 4. The first read comes after that issue, at 4; its increment stores at 7, the second one at 10, the sum at 14,
# where the difference is issued. The last issue takes one cycle more.
COUNTED = [0, 0, 0, 2, 4, 4, 4, 4, 7, 7, 7, 10, 10, 10, 14, 14, 14, 15]
# Where its rows begin that aren't issued by so many events. Four are issued, by the events 3, 4, 5 and 17.
BELOW = [*[72] * 3, 94, 116, *[138] * 12, 160, 160]
TOTALS = [("Minor cycles", "15"), ("Instructions", "4"), ("Instructions a minor cycle", "0.267")]
# What each row has in its cycles.
MARKS = {
    "machine": {0: "QX", 4: "E7", 15: "D"}, "1": {0: "I", 4: "R", 7: "FS"}, "2": {2: "I", 7: "R", 10: "FS"},
    "3": {4: "IE9", 10: "R", 14: "FS"}, "4": {14: "I", 15: "D"},
}
# The letters of a label and of a column in the text.
LABEL, COLUMN = 24, 5
# A loop with loads, a pass and a stop.
LOOP = "START SB1 2\nLOOP SA1 B1+WORDS\n SB1 B1-1\n NO\n NE B1,B0,LOOP\n PS\nWORDS BSS 3\n"
# What a page says of its numbers.
OCTAL = "Addresses, packages, words, the values of registers and the numbers in instructions are octal"
# The table of the session conflicts by its events, and those of two decks by the minor cycles that test_scheduling.py
# counts by hand: the number, the text and the unit, the six moments, and what held the reservation.
TABLES = {
    "conflicts": """
1|SX1 B0+5|increment1|3|8|9|10|||
2|SX2 B0+3|increment2|4|11|12|13|||
3|IX3 X1+X2|longadd|5|14|15|16|||read: E9 operand awaited X2 (reservation 2)
4|IX4 X2-X1|longadd|17||||||issue: E7 unit busy longadd (reservation 3)
""", DECK: """
1|SX1 B0+5|increment1|26|26|29|29|||
2|SX2 B0+3|increment2|28|28|31|31|||
3|IX3 X1+X2|longadd|30|31|34|34|||read: E9 operand awaited X2 (reservation 2), 1 cycle
4|IX4 X2-X1|longadd|34|34|37|37|||issue: E7 unit busy longadd (reservation 3), 3 cycles
""", BANK: """
1|SA1 B0+1|increment1|26|26|29|29|29|34|
2|SA2 B0+41|increment2|28|28|31|31|39|44|accept: E13 bank busy 1 (reservation 1), 8 cycles
""",
}
# What JSON has of the last reservation, and of what held that of the session conflicts.
OBJECT = {
    "reservation": 2, "instruction": "SA2 B0+41", "unit": "increment2", "issue": 28, "read": 28, "finish": 31,
    "store": 31, "accepted": 39, "returned": 44,
    "held": {"event": "accept", "rule": "E13", "reason": "E13 bank busy 1", "by": [1], "cycles": 8},
}
HELD = {"event": "issue", "rule": "E7", "reason": "E7 unit busy longadd", "by": [3], "cycles": None}
# The rows of the page of two schedules that come first, in the order of a summary, and what a summary says of them.
COUNTS = (
    "Instructions", "Minor cycles", "Instructions a minor cycle", "Minor cycles without the first exchange",
    "Instructions a minor cycle without the first exchange",
)
SUMMARY = re.compile(r"policy .*: (\d+) instructions in (\d+) .*, ([0-9.]+) instructions a cycle\n"
                     r"without the first exchange: (\d+) minor cycles, ([0-9.]+) instructions a cycle\n")
WAIT = re.compile(r"^(?:the .*:|  waits: (.*\S) +(\d+))$", re.MULTILINE)
TH, TD = '<tr><th scope="row">([^<]*)</th>', "<td>([^<]*)</td>"
ROW = re.compile('<tr><th scope="row">([0-9]+)</th>((?:<td>[^<]*</td>){9})</tr>')
# The words of a call, the status, and how the last line ends that is told.
REFUSED = (
    ("timeline --cycles --times bad CONFLICTS", 1, "column 9: 'x' .*"),
    ("timeline --cycles --times /nowhere CONFLICTS", 1, "/nowhere: No such file or directory"),
    ("timeline --times /nowhere CONFLICTS", 2, "--times goes with --cycles or --compare"),
    ("timeline --json CONFLICTS", 2, "--json goes with --table"),
    ("timeline --table --html CONFLICTS", 2, "--html: not allowed with argument --table"),
    ("timeline --html --compare CONFLICTS", 2, "--compare takes --html and two sessions"),
    ("timeline --html --compare CONFLICTS ONE_BANK", 1, "its deck isn't that of .*"),
    ("gallery none /nowhere", 1, "/nowhere: No such file or directory"),
    ("gallery none ONE_BANK ONE_BANK", 1, "another page is one-bank.html"),
    ("gallery none REFUSED", 1, "E20 line 4: range"),
)
FILES = {"CONFLICTS": CONFLICTS, "ONE_BANK": ONE_BANK, "REFUSED": str(deck("refused").file)}
Mark = tuple[int, int, str]
pytestmark = pytest.mark.usefixtures("program")


class Picture(NamedTuple):
    """A picture of a page: its label, the numbers of its columns, its other marks with the heights of their rows, and
    how many columns have a bar of a reserved unit, by these heights."""

    label: str | None
    columns: list[int]
    marks: list[Mark]
    bars: Counter[int]

    @classmethod
    def read(cls, text: str) -> Picture:
        """Reads the text of a picture."""
        root = ET.fromstring(text)
        texts = [(it.attrib["x"], int(it.attrib["y"]), it.text or "")
                 for it in root.iter() if it.get("text-anchor") == "middle"]
        numbers = {x: int(text) for x, y, text in texts if y == 22}
        marks = [(y, numbers[x], text) for x, y, text in texts if numbers and y != 22]
        bars = [it for it in root.iter() if it.get("fill") == COLOURS[RESERVED]]
        heights = Counter(int(it.attrib["y"]) + BAR_RISE for it in bars)
        return cls(root.get("aria-label"), [*numbers.values()], marks, heights)


def pictures_of(page: str) -> list[Picture]:
    """The pictures of a page."""
    return [Picture.read(text) for text in re.findall(r"<svg.*?</svg>", page, re.DOTALL)]


def printed(tool: str, *words: str | Path) -> str:
    """What a tool prints that has nothing to tell."""
    ended = called(f"tools/{tool}", *words)
    assert (ended.status, ended.told) == (0, "")
    return ended.printed


def scheduled(folder: Path, file: str | Path, policy: str = TIMED) -> Path:
    """The session to which a deck is scheduled."""
    made = folder / f"{policy}.session"
    made.write_text(printed("schedule", "--policy", policy, file), encoding="latin-1")
    return made


def data_of(page: str) -> Any:
    """The data of a page."""
    found = DATA.search(page)
    assert found
    return json.loads(found[1])


@pytest.fixture
def timed(tmp_path: Path) -> list[str]:
    """The words for the session conflicts by the times of this check."""
    (tmp_path / "times").write_text(TIMES, encoding="ascii")
    return ["--cycles", "--times", str(tmp_path / "times"), CONFLICTS]


def columns_of(line: str) -> dict[int, str]:
    """The marks of a row of the text by their columns."""
    cells = [line[at : at + COLUMN].strip(" -=~") for at in range(LABEL, len(line), COLUMN)]
    return {column: mark for column, mark in enumerate(cells) if mark}


def test_text(timed: Sequence[str]) -> None:
    rows = {line.split()[0]: columns_of(line) for line in printed("timeline", *timed).splitlines()[2:7] if line}
    assert rows == MARKS


def test_picture(timed: Sequence[str]) -> None:
    picture, = pictures_of(printed("timeline", "--svg", *timed))
    came = [(column, mark) for height, column, mark in picture.marks if height > 44]
    assert came == [pair for marks in MARKS.values() for pair in marks.items()]


def test_page(timed: Sequence[str]) -> None:
    page = printed("timeline", "--html", *timed)
    data = data_of(page)
    assert (data["columns"], data["cycles"], data["below"]) == (COUNTED, COUNTED, BELOW)
    assert OCTAL in page
    order = re.findall('id="title-(totals|reservations|picture)"', page)
    assert order == ["totals", "reservations", "picture"]
    assert re.findall(f"{TH}{TD}</tr>", page)[: len(TOTALS)] == TOTALS


def test_picture_in_sight(tmp_path: Path) -> None:
    """A bank is freed, a pass or a stop is issued, or the session ends: events of no reservation."""
    (tmp_path / "loop.source").write_text(LOOP, encoding="ascii")
    steps = data_of(printed("timeline", "--html", scheduled(tmp_path, tmp_path / "loop.source")))["steps"]
    kinds = set()
    for before, step in zip(steps, steps[1:]):
        kind = step["event"].split(" ")[0]
        if kind in ("bank", "end") or (kind, step["answer"]) == ("issue", "ok"):
            kinds.add(kind)
            assert step["line"] == before["line"]
    assert kinds == {"bank", "issue", "end"} and len({step["line"] for step in steps}) > 1


def session_of_table(folder: Path, name: str) -> tuple[list[str], Path]:
    """The session of a table, after the options by which it is drawn."""
    if name == "conflicts":
        return [], Path(CONFLICTS)
    (folder / "table.deck").write_text(name, encoding="ascii")
    return ["--cycles"], scheduled(folder, folder / "table.deck" if name == BANK else name)


def cells_of(table: str) -> Iterator[tuple[str, ...]]:
    """The cells of each row of a table as text. A moment ends where its head ends."""
    head, *lines = table.splitlines()
    _, text, unit, *ends = (it.end() for it in re.finditer(r"\S+", head))
    begins = [0, text - len("instruction"), unit - len("unit"), *ends[:-2]]
    for line in lines[:-2]:
        number, name, first, *others = (line[at:end].strip() for at, end in zip(begins, [*begins[1:], None]))
        yield number, name, *first.split(), *others


@pytest.mark.parametrize("name", TABLES, ids=("conflicts", "two-adds", "one-bank"))
def test_table(tmp_path: Path, name: str) -> None:
    """The page of two schedules has the table twice."""
    options, file = session_of_table(tmp_path, name)
    wanted = [tuple(line.split("|")) for line in TABLES[name].strip("\n").split("\n")]
    assert [*cells_of(printed("timeline", "--table", *options, file))] == wanted
    named = [(number, text, NAMES[unit], *others) for number, text, unit, *others in wanted]
    pages: list[list[str | Path]] = [["--html", *options, file]]
    pages += [["--html", "--compare", file, file]] * bool(options)
    for times, words in enumerate(pages, 1):
        found = ROW.findall(printed("timeline", *words))
        assert [(number, *re.findall(TD, cells)) for number, cells in found] == named * times


def test_json(tmp_path: Path) -> None:
    options, file = session_of_table(tmp_path, BANK)
    assert json.loads(printed("timeline", "--table", "--json", *options, file))[1:] == [OBJECT]
    assert json.loads(printed("timeline", "--table", "--json", CONFLICTS))[3]["held"] == HELD


def told_by_summary(policy: str, file: Path) -> tuple[list[str], list[tuple[str, str]]]:
    """The counts of a schedule, and its waits with their causes: those of the issuing position after a pair of empty
    texts, and then those of the reservations likewise."""
    said = printed("schedule", "--summary", "--policy", policy, file)
    counts = SUMMARY.match(said)
    assert counts
    return [*counts.groups()], WAIT.findall(said)


def told_by_page(files: Sequence[Path]) -> Iterator[tuple[list[str], list[tuple[str, str]]]]:
    """The same of each schedule of a page of two."""
    rows = re.findall(f"{TH}{TD}{TD}</tr>", printed("timeline", "--html", "--compare", *files))
    for at in (1, 2):
        counts = {row[0]: row[at] for row in rows}
        waits = [(row[0][2:], row[at]) if row[0].startswith("· ") else ("", "") for row in rows[len(COUNTS) :]]
        yield [counts[name] for name in COUNTS], [wait for wait in waits if wait[1] != "0"]


@pytest.mark.parametrize("policy", POLICIES)
@pytest.mark.parametrize("name", ("load-store", "subroutine"))
def test_comparison(tmp_path: Path, name: str, policy: str) -> None:
    compared, file = (policy, TIMED), deck(name).file
    page = told_by_page([scheduled(tmp_path, file, it) for it in compared])
    assert [*page] == [told_by_summary(it, file) for it in compared]


def test_units(tmp_path: Path) -> None:
    """The increments have the reservations that are issued at 26 and 28, Long Add those issued at 30 and 34."""
    file = scheduled(tmp_path, DECK)
    page = printed("timeline", "--html", "--compare", file, file)
    assert OCTAL in page
    drawn = [it for it in pictures_of(page) if it.label]
    rows = {unit: 22 * (unit + 1) for unit in (5, 9, 10)}
    marks = [(rows[5], 30, "3"), (rows[5], 34, "4"), (rows[9], 26, "1"), (rows[10], 28, "2")]
    bars = {rows[5]: 4 + 3, rows[9]: 3, rows[10]: 3}
    held = [(it.marks, it.bars) for it in drawn if (it.label or "").startswith("The units of")]
    assert held == [(marks, bars)] * 2
    assert all(it.columns == [0, *range(26, 38)] for it in drawn)


def test_pieces(tmp_path: Path) -> None:
    """Each piece for paper has the rows that have something there."""
    page = printed("timeline", "--html", "--cycles", scheduled(tmp_path, FOLDER / "source/total.source"))
    timeline, units = map(pictures_of, re.findall(r'<div class="pieces".*?</div>', page, re.DOTALL))
    for pieces in (timeline, units):
        assert [it.columns for it in pieces] == [[0, *range(26, 65)], [*range(65, 74)]]
    whole = max((it.marks for it in pictures_of(page)), key=len)
    counts = [sum(height > 66 for height, *_ in marks) for marks in (whole, [*timeline[0].marks, *timeline[1].marks])]
    assert counts[0] == counts[1]
    assert max(height for height, *_ in timeline[1].marks) == 22 * 5


def test_gallery(tmp_path: Path) -> None:
    odd, pages = tmp_path / "one & <two>.session", tmp_path / "pages"
    odd.write_bytes(session("one-bank").text)
    called("tools/gallery", pages, odd, deck("shift").file)
    assert sorted(it.name for it in pages.iterdir()) == ["index.html", "one & <two>.html", "shift.html"]
    index = (pages / "index.html").read_text(encoding="utf-8")
    assert '<a href="one%20%26%20%3Ctwo%3E.html">one &amp; &lt;two&gt;</a>' in index
    assert '<a href="shift.html">shift</a>' in index


@pytest.mark.parametrize("name", ("one-bank.html", "index.html"))
def test_place_of_a_page(tmp_path: Path, name: str) -> None:
    """Only a page of the tool is written over, and no other file, nor one to which a link leads."""
    page, away = tmp_path / "pages" / name, tmp_path / "away"
    words = "tools/gallery", page.parent, ONE_BANK
    assert [called(*words).status for _ in range(2)] == [0, 0]
    page.write_text("mine", encoding="ascii")
    refused = [called(*words)]
    page.rename(away)
    page.symlink_to(away)
    refused.append(called(*words))
    assert page.read_text(encoding="ascii") == "mine"
    for it in refused:
        assert it.status == 1 and it.told.endswith(f"{name}: it is there already, and isn't written over\n")


@pytest.mark.parametrize("call, status, told", REFUSED)
def test_refused(tmp_path: Path, call: str, status: int, told: str) -> None:
    (tmp_path / "bad").write_text("issue15 x\n", encoding="ascii")
    tool, *words = (FILES.get(word, word) for word in call.split())
    came = called(ROOT / "tools" / tool, *words, cwd=tmp_path)
    assert (came.status, came.printed) == (status, "") and "Traceback" not in came.told
    assert re.search(f"{told}$", came.told.splitlines()[-1])

"""The source programs by which the assemblers are tried: those of decks/ and its pages, and the texts of all
instructions."""

import re
from typing import Iterator

from cdc6600.shared.decks import FOLDER, PAGES, cells_of, decks
from cdc6600.shared.instructions import FIELDS, ROWS

SOURCES = FOLDER / "source"
GOOD_PAGE, BAD_PAGE = PAGES / "good-sources.md", PAGES / "bad-sources.md"
# A line of a listing: the address, the word and its text.
LISTED = re.compile(r"([0-7]{6}) ([0-7]{20}) (.*)")
# A source program for the other tools, and one with two faults.
GOOD, FAULTY = "START   SX1 5\n  SX2 X1\n  PS\n", "START SX1 5\n  FX2 X1+X1\n BAD\n"
# The numbers that stand for each field of a text in turn; a field with fewer of them begins again.
TRIED = {"i": (0, 5, 7, 1), "j": (7, 0, 6, 2, 3), "k": (1, 7, 0, 4, 5, 2), "jk": (0, 1, 0o10, 0o74, 0o77),
         "K": (0, 1, 0o377777, 0o400000, 0o777777, 0o12345)}
TURNS = 12


def given(cell: str) -> str:
    """The text that a cell of a page stands for."""
    text = cell.replace("`", "")
    for name, character in (("n", "\n"), ("t", "\t"), ("r", "\r")):
        text = text.replace(f"\\{name}", character)
    return text


def rows(page: str, head: str) -> list[tuple[str, str]]:
    """The texts of the rows below a head of a page, and what stands beside each."""
    cells = cells_of(PAGES / page, head)
    return [(given(text), given(beside)) for text, beside in cells if text.startswith("`")]


PLACED, SHORT, WHOLE = (rows(GOOD_PAGE.name, head) for head in ("Words", "Short forms", "Whole sources"))
BAD = [("START PS\n" + source, told) for source, told in rows(BAD_PAGE.name, "Lines")]
BAD += rows(BAD_PAGE.name, "Whole sources")


def of_short_forms(side: int) -> str:
    """A source of all short forms, or of the texts for which they stand."""
    return "\n".join(["START PS", *(f" {pair[side]}" for pair in SHORT), "L PS"])


def each_text() -> list[str]:
    """Texts of all instructions, several of each row; and all that the listings of decks/ have."""
    found = [row.spelled({name: TRIED[name][turn % len(TRIED[name])] for name in FIELDS.findall(row.text)})
             for row in ROWS.values() for turn in range(TURNS)]
    for listing in (it.listing.decode() for it in decks() if it.listing):
        for line in listing.splitlines():
            listed = LISTED.fullmatch(line)
            assert listed, line
            found += [text for text in listed[3].split("; ") if not text.startswith("?")]
    return list(dict.fromkeys(found))


def of_all_texts() -> str:
    """A source with each of these texts in a word of its own."""
    return "START PS\n" + "".join(f"L{number} {text}\n" for number, text in enumerate(each_text()))


def all_sources() -> Iterator[str]:
    """All sources that are tried."""
    yield from (file.read_text(encoding="utf-8") for file in sorted(SOURCES.glob("*.source")))
    yield from (text for text, _ in [*BAD, *WHOLE])
    yield from (f"START NO\n{text}" for text, _ in PLACED)
    yield from (of_short_forms(0), of_short_forms(1), of_all_texts())
    yield from (GOOD, FAULTY, "", "\n", "START PS\n" + " BAD\n" * 25)

"""Tries tools/image.

- Images of up to 40 words are drawn, unpacked and packed again, their listings with the lines in another order, with
  `M` before them and with the digits in groups. Each listing has the digits that are worked out here, four bits at a
  time.
- The memory of a deck that is made of an image, as the program prints it, is packed to the same image.
- An image that is cut off is refused unless whole words are left, and so is an image whose last four bits aren't zero.
- A faulty line of a listing is named by its number, and so is a word that is missing or has two values.
- The table of docs/use/keepers.md has the characters that are printed, and --set 63 differs from it in two codes.

Run it after a change of that tool or of that table.
"""

from __future__ import annotations

import random
import re
from typing import Sequence

import pytest
from running import Ended, Runner, called

from cdc6600.shared.decks import lines_of
from cdc6600.shared.program import ROOT

TOOL, PAGE = "tools/image", ROOT / "docs/use/keepers.md"
SIZES, ONES = (1, 2, 3, 4, 5, 8, 17, 40), (1 << 60) - 1
# The words of a deck's memory.
CORE = 64
# Listings that are refused, each with what is told of it.
REFUSED = (
    ("100 5\n101 9\n", "line 2: '101 9' is no"), ("100 5\n\n", "line 2: '' is no"), ("100\n", "line 1: '100' is no"),
    ("1000000 5\n", "line 1: '1000000 5' is no"), (f"100 {'7' * 21}\n", f"line 1: '100 {'7' * 21}' is no"),
    ("100 12345 67\n", "line 1: '100 12345 67' is no"), ("N 100 5\n", "line 1: 'N 100 5' is no"),
    ("100 5\n101 \x1b[31m\n", "line 2: '101 \\x1b[31m' is no"),
    ("100 5\n101 6\n100 7\n", "line 3: word 000100 is 00000000000000000007, and above it is 00000000000000000005"),
    ("100 5\n103 6\n101 7", "word 000102 is missing: the words go from 000100 to 000103"), ("", "it has no word"),
)
# The bytes of an image that is cut off, with what is told of it.
CUT = [(size, f"{size} bytes are no whole") for size in (0, 1, 7, 9, 14, 16, 22, 24, 37)] + [
    (8, "8 bytes: the four bits after word number 1"), (23, "23 bytes: the four bits after word number 3"),
]
BAD_CALLS = (("unpack",), ("turn", "-"), ("unpack", "--at", "8", "-"), ("pack", "--at", "7", "-"),
             ("unpack", "--set", "63", "-"), ("text", "--set", "65", "-"))


def image_of(words: Sequence[int]) -> bytes:
    """The image of some words: half a byte after the other."""
    halves = "".join(f"{word:015x}" for word in words)
    return bytes.fromhex(halves + "0" * (len(halves) % 2))


@pytest.mark.parametrize("size", SIZES)
def test_round_trip(size: int) -> None:
    draws = random.Random(size)
    words = [draws.choice((0, ONES, draws.getrandbits(60), draws.getrandbits(60))) for _ in range(size)]
    image, first = image_of(words), draws.randrange(0o1000000 - size)
    lines = [f"{at:06o} {word:020o}" for at, word in enumerate(words, first)]
    listing = "".join(f"{line}\n" for line in lines)
    assert called(TOOL, "unpack", "--at", f"{first:o}", "-", given=image) == Ended(0, listing)
    grouped = [re.sub(r"(?<= )(\d{5})(\d{5})(\d{5})(\d{5})", r"\1 \2 \3 \4", line) for line in lines]
    for form in (lines, [f"M {line}" for line in lines], grouped):
        turned = "\n".join(draws.sample(form, size))
        assert called(TOOL, "pack", "-", given=turned) == Ended.of(0, image)


def test_memory_of_a_deck(program: Runner) -> None:
    draws = random.Random(6600)
    image = image_of([draws.getrandbits(60) for _ in range(CORE)])
    words = [line.split()[1] for line in called(TOOL, "unpack", "-", given=image).lines]
    deck = "\n".join([f"core {CORE}", *(f"word {it}" for it in words), "start 0", f"show 0 {CORE - 1:o}", "end", ""])
    listing = "".join(f"{line}\n" for line in program("replay", "none", given=deck).lines if line.startswith("M "))
    assert called(TOOL, "pack", "-", given=listing) == Ended.of(0, image)


def refuse(told: str, *words: str, given: bytes | str) -> None:
    """Checks that the tool refuses its input in a line that begins with a text."""
    came = called(TOOL, *words, given=given)
    assert (came.status, came.printed, came.told.count("\n")) == (1, "", 1)
    assert came.told.startswith(f"tools/image: standard input: {told}")


@pytest.mark.parametrize("size, told", CUT)
def test_cut_image(size: int, told: str) -> None:
    refuse(told, "unpack", "-", given=image_of([ONES] * 5)[:size])


def test_image_whose_last_bits_are_set() -> None:
    image = image_of([ONES] * 5)
    refuse("38 bytes: the four bits after word number 5", "unpack", "-", given=image[:-1] + bytes([image[-1] | 1]))


@pytest.mark.parametrize("listing, told", REFUSED)
def test_refused_listing(listing: str, told: str) -> None:
    refuse(told, "pack", "-", given=listing)


def test_address_beyond_the_last_one() -> None:
    refuse("2 words", "unpack", "--at", "777777", "-", given=image_of([1, 2]))


@pytest.mark.parametrize("words", BAD_CALLS, ids=" ".join)
def test_bad_call(words: Sequence[str]) -> None:
    assert called(TOOL, *words).status == 2


@pytest.mark.parametrize("words, changed", [((), {}), (("--set", "64"), {}), (("--set", "63"), {0: " ", 0o63: ":"})])
def test_text(words: Sequence[str], changed: dict[int, str]) -> None:
    table = {int(code, 8): character for line in lines_of(PAGE) if re.match(r"0[0-7] .  1", line)
             for code, character in re.findall(r"(?:^|  )([0-7]{2}) (.)", line)}
    assert sorted(table) == list(range(64))
    digits = "".join(f"{code:02o}" for code in range(64)) + "01" * 6
    listing = "".join(f"{at // 20:o} {digits[at : at + 20]}\n" for at in range(0, len(digits), 20))
    shown = [line[28:].ljust(10) for line in called(TOOL, "text", *words, "-", given=listing).lines]
    assert "".join(shown) == "".join((table | changed)[code] for code in range(64)) + "A" * 6

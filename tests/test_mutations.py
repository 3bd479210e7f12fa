"""Lists decks that are cut and bent, and compares what `cdc6600 list` says with a reader of decks of its own.

The reader here follows docs/use/formats.md, and takes the codes and texts of instructions from the tables of
docs/use/instructions.md, by shared/instructions.py; it shares nothing with the program. A deck or session of decks/, or
a deck that is drawn, gets faults. There are 3,000 such decks, the same ones each time. A refused deck has to give
status 1, its one fault line and no output. At a terminal a second line follows, and the refused line has to have, at
the column that this line names, what it names. An accepted deck has to give status 0 and its listing, and the deck of
`at` and `word` lines that this listing makes has to give the same listing. Further cases are each beginning of
all-rows.deck, as it is and with an `end` line after it, and decks with as many lines as there may be.

Run it after a change of docs/use/formats.md, of the tables of docs/use/instructions.md, or of what reads and lists
decks.
"""

from __future__ import annotations

import functools
import random
import re
from typing import Callable, TypeVar

import pytest
from running import Ended, Runner, told_at_terminal

from cdc6600.limits import LEAST_WORDS, MOST_ASKS, MOST_INSTRUCTIONS, MOST_LINES, MOST_SHOWS, MOST_WORDS, READ_OF_A_LINE
from cdc6600.shared.decks import deck, decks, sessions
from cdc6600.shared.instructions import ROWS, instruction, items_of

# The longest decks take longer than others.
MINUTES = 30
# How many cases there are, and how many of them, and of the beginnings of a deck, a test has.
SEED, CASES, AT_ONCE = 6600, 3000, 100
ALL_ROWS = deck("all-rows").text
STORED = [it.text for it in sorted([*decks(), *sessions()], key=lambda it: it.file.name)]

# ---- the decks, as docs/use/formats.md has them ----


class Refused(Exception):
    """The fault of a line."""


def number(field: bytes, base: int, most: int) -> int:
    """The number of a field that has 1 to `most` digits."""
    digits = b"01234567" if base == 8 else b"0123456789"
    if not 1 <= len(field) <= most or field.strip(digits):
        raise Refused("number")
    return int(field, base)


def within(holds: bool, fault: str) -> None:
    """Names a fault where a rule doesn't hold."""
    if not holds:
        raise Refused(fault)


class Deck:
    """What the lines of a deck have said so far; a method for each line, called with its fields."""

    start: int | None = None
    size = place = shows = asks = 0

    def __init__(self) -> None:
        self.words: dict[int, int] = {}

    def core(self, size: bytes) -> None:
        words = number(size, 10, 6)
        within(LEAST_WORDS <= words <= MOST_WORDS, "size")
        within(not self.size, "repeated")
        self.size = words

    def at(self, address: bytes) -> None:
        place = number(address, 8, 6)
        within(place < self.size, "range")
        self.place = place

    def put(self, word: Callable[[], int]) -> None:
        within(self.place < self.size, "range")
        self.words[self.place] = word()
        self.place += 1

    def word(self, word: bytes) -> None:
        value = number(word, 8, 20)
        self.put(lambda: value)

    def code(self, *texts: bytes) -> None:
        self.put(lambda: code_word(b" ".join(texts)))

    def package(self, at: int) -> None:
        within(at + 16 <= self.size, "package")

    def begin(self, at: bytes) -> None:
        place = number(at, 8, 6)
        within(self.start is None, "repeated")
        self.package(place)
        self.start = place

    def ask(self, at: bytes, when: bytes, count: bytes | None = None) -> None:
        within(when == (b"free" if count is None else b"after"), "unknown")
        place = number(at, 8, 6)
        within(count is None or number(count, 10, 8) <= MOST_INSTRUCTIONS, "number")
        within(self.asks < MOST_ASKS, "many")
        self.package(place)
        self.asks += 1

    def show(self, *fields: bytes) -> None:
        first, last = (number(it, 8, 6) for it in fields)
        within(self.shows < MOST_SHOWS, "many")
        within(first <= last < self.size, "range")
        self.shows += 1

    LINES: dict[bytes, tuple[Callable[..., None], list[int]]] = {
        b"core": (core, [1]), b"at": (at, [1]), b"word": (word, [1]), b"start": (begin, [1]),
        b"ask": (ask, [2, 3]), b"show": (show, [2]),
    }

    def take(self, line: bytes) -> bool:
        """Takes a line, and says whether the deck is at its end."""
        within(len(line) <= 200, "long")
        first, *fields = line.split(b" ")
        within(bool(self.size) or first == b"core", "first")
        if first == b"end" and not fields:
            within(self.start is not None, "no start")
            return True
        if first == b"code" and fields not in ([], [b""]):
            self.code(*fields)
            return False
        within(first in self.LINES and len(fields) in self.LINES[first][1], "unknown")
        self.LINES[first][0](self, *fields)
        return False


def code_word(texts: bytes) -> int:
    """The word of some instructions, filled up with passes."""
    found = [instruction(text.decode("latin-1")) for text in texts.split(b"; ")]
    within(None not in found, "instruction")
    parcels = [parcel for it in found if it for parcel in it.parcels]
    within(len(parcels) <= 4, "full")
    return functools.reduce(lambda word, parcel: word << 15 | parcel, [*parcels, *[0o46000] * (4 - len(parcels))], 0)


def listing_of(words: dict[int, int]) -> str:
    """The listing of words by their addresses."""
    digits = {address: f"{word:020o}" for address, word in sorted(words.items())}
    return "".join(f"{at:06o} {word} {'; '.join(items_of(word).values())}\n" for at, word in digits.items())


def judged(text: bytes) -> Ended:
    """What `list` has to give for a deck."""
    deck, lines, line = Deck(), text.removesuffix(b"\n").split(b"\n") if text else [], 0
    try:
        for line, content in enumerate(lines, 1):
            if deck.take(content):
                return Ended(0, listing_of(deck.words))
        line += 1
        raise Refused("no end")
    except Refused as fault:
        return Ended(1, told=f"cdc6600: E20 line {line}: {fault}\n")


def deck_again(listing: str, size: int) -> bytes:
    """The deck of `at` and `word` lines that has the words of a listing."""
    words = [line.split(" ")[:2] for line in listing.splitlines()]
    placed = "".join(f"at {address}\nword {word}\n" for address, word in words)
    return f"core {size}\n{placed}start 0\nend\n".encode()


# ---- the decks that are tried ----


NUMBERS = [b"", b"0", b"00", b"7", b"8", b"9", b"-1", b"+1", b"1.", b"0x1", b"1_0", b" ", b"\t1", b"\xd9\xa3", b"\x001",
           b"31", b"32", b"33", b"15", b"16", b"17", b"20", b"37", b"40", b"41", b"63", b"64", b"100", b"255", b"256",
           b"257", b"360", b"361", b"377", b"400", b"0377", b"000400", b"0000400", b"777", b"131071", b"131072",
           b"131073", b"0131072", b"377777", b"377760", b"377761", b"400000", b"777777", b"0777777", b"1000000",
           b"999999", b"9999999", b"10000000", b"10000001", b"010000000", b"99999999", b"100000000", b"4294967296",
           b"4294967328", b"18446744073709551616", b"77777777777777777777", b"177777777777777777777",
           b"777777777777777777777", b"00000000000000000001", b"000000000000000000001", b"7" * 190, b"7" * 300]
WORDS = [b"core", b"at", b"word", b"code", b"start", b"ask", b"show", b"end", b"after", b"free", b"Core", b"END",
         b"words", b"wor", b"issue", b"drain", b"NO", b"", b";", b"#"]
BYTES = [0, 9, 10, 10, 13, 32, 32, 48, 55, 56, 59, 65, 75, 106, 127, 128, 255]


# Lines of which a deck has a limited number, and addresses at or near the ends of memories.
LIMITED = [b"show 0 0", b"ask 0 after 0", b"ask 20 after 10000000", b"ask 20 free"]
LAST_PLACES = [b"37", b"377", b"376", b"377777", b"400"]
# What is put into a line or an instruction, or in the place of a deck's last line, or after it.
ADDED = [b"0", b" ", b"x", b"; NO", b"\x00", b"\xff"]
WRONG = [b"0", b"8", b" ", b"", b"+", b"-", b"B0", b"K", b"x"]
ENDS = [b"\nend", b"\nen", b"\nend\r", b"\nend\x00", b"\nend ", b"\n", b"", b"\n\nend"]
AFTER_END = [b"\x00", b"core 31\n", b"x" * 300, b"\n\n", b"\xff\n"]
SIZES = [b"32", b"33", b"48", b"64", b"80", b"128", b"255", b"256", b"131072", b"000256"]
Draw = random.Random
Lines = list[bytes]
Items = TypeVar("Items", bytes, Lines)


def some_instruction(draw: Draw) -> bytes:
    """A text of an instruction, now and then one that isn't quite right."""
    row = ROWS[draw.choice(list(ROWS))]
    value = {"i": draw.randrange(8), "j": draw.randrange(8), "k": draw.randrange(8), "jk": draw.randrange(64),
             "K": draw.choice([0, 1, 7, 0o777777, draw.randrange(1 << 18)])}
    text = row.spelled(value).encode()
    return spliced(draw, text, draw.choice(WRONG), draw.randrange(2)) if draw.random() < 0.03 else text


def some_code(draw: Draw) -> bytes:
    """A line of instructions, now and then too many."""
    count = draw.choice([1, 1, 1, 1, 2, 2, 2, 2, 2, 3, 4, 5])
    return b"code " + b"; ".join(some_instruction(draw) for _ in range(count))


def some_line(draw: Draw) -> bytes:
    """A line that may be in a deck, with hostile numbers now and then."""
    address, other = (
        b"%o" % draw.randrange(0o420) if draw.random() < 0.8 else draw.choice(NUMBERS) for _ in range(2)
    )
    hostile, word = draw.choice(NUMBERS), draw.getrandbits(60)
    return draw.choice([
        b"core " + hostile, b"at " + address, b"word %o" % word, b"word " + hostile, some_code(draw),
        b"start " + address, b"ask %s after %s" % (address, hostile), b"ask %s free" % address,
        b"show %s %s" % (address, other), b"end", b" ".join(draw.choices(WORDS, k=draw.randrange(1, 4))), b"",
    ])


def drawn_deck(draw: Draw) -> bytes:
    """A deck of drawn words and instructions, which is right for the most part."""
    size = draw.choice([32, 33, 64, 256, 131072])
    lines = [b"core %d" % size, b"start %o" % draw.randrange(size - 15)]
    for _ in range(draw.randrange(20)):
        lines += [b"at %o" % draw.randrange(size)] if draw.random() < 0.4 else []
        lines.append(some_code(draw) if draw.random() < 0.3 else b"word %o" % draw.getrandbits(60))
    return b"\n".join([*lines, b"end", b""])


def spliced(draw: Draw, items: Items, added: Items, dropped: int = 0) -> Items:
    """A text or a list with something added at a place that is drawn, and so many items after it dropped."""
    at = draw.randrange(len(items) + (not dropped))
    return items[:at] + added + items[at + dropped:]


def change_field(draw: Draw, line: bytes) -> Lines:
    """Another field."""
    field = draw.choice(NUMBERS if draw.random() < 0.75 else WORDS)
    return [b" ".join(spliced(draw, line.split(b" "), [field], 1))]


def change_fields(draw: Draw, line: bytes) -> Lines:
    """Fields added or dropped."""
    added: Lines = draw.choice([[], [b""], [b"0"], [b"", b""], [b"after"]])
    return [b" ".join(spliced(draw, line.split(b" "), added, draw.randrange(2)))]


def lengthen(draw: Draw, line: bytes) -> Lines:
    """A long line."""
    length = draw.choice([198, 199, 200, 201, 202, 256, 400, 4096, 70000])
    return [(line[:length] + draw.choice(ADDED) * length)[:length]]


def carriage_return(draw: Draw, deck: bytes) -> bytes:
    """A carriage return at the end of a line, or of each."""
    at = deck.find(b"\n", draw.randrange(len(deck) + 1))
    return deck.replace(b"\n", b"\r\n") if at < 0 else deck[:at] + b"\r" + deck[at:]


# What is put in the place of a line.
OF_A_LINE: tuple[Callable[[Draw, bytes], Lines], ...] = (
    lambda draw, line: [line] * draw.choice([3, 63, 64, 65, 66]),
    lambda draw, line: [draw.choice(LIMITED)] * draw.choice([1, 63, 64, 64, 65]) + [line],
    lambda draw, line: [],
    lambda draw, line: [some_line(draw), line], lambda draw, line: [some_line(draw), line],
    lambda draw, line: [b"at " + draw.choice(LAST_PLACES), some_line(draw), some_line(draw), line],
    change_field, change_field, change_field, change_fields, lengthen,
)


def change_line(draw: Draw, deck: bytes) -> bytes:
    """Something else in the place of a line."""
    lines = deck.split(b"\n")
    at = draw.randrange(len(lines))
    return b"\n".join([*lines[:at], *draw.choice(OF_A_LINE)(draw, lines[at]), *lines[at + 1:]])


def copy_line(draw: Draw, deck: bytes) -> bytes:
    """A line once more elsewhere, or moved there."""
    lines = deck.split(b"\n")
    at = draw.randrange(len(lines))
    return b"\n".join(spliced(draw, lines[:at] + lines[at + draw.randrange(2):], [lines[at]]))


def change_byte(draw: Draw, deck: bytes) -> bytes:
    """Another byte, one more or one less."""
    byte = bytes([draw.choice(BYTES) if draw.random() < 0.7 else draw.randrange(256)])
    return spliced(draw, deck, *draw.choice([(byte, 1), (byte, 1), (byte, 0), (b"", 1)])) if deck else byte


# The mutations of a deck, with their weights.
MUTATIONS: dict[Callable[[Draw, bytes], bytes], int] = {
    lambda draw, deck: deck[:draw.randrange(len(deck) + 1)]: 2,
    change_byte: 4, carriage_return: 1, copy_line: 2, change_line: len(OF_A_LINE),
    lambda draw, deck: deck[:deck.find(b"\nend\n")] + draw.choice(ENDS): 1,
    lambda draw, deck: re.sub(rb"\nstart [0-7]+", b"", deck): 1,
    lambda draw, deck: deck.replace(b"\nend\n", b"\nend\n" + draw.choice(AFTER_END), 1): 1,
    lambda draw, deck: re.sub(rb"^[^\n]*", b"core " + draw.choice(SIZES), deck): 1,
}


def mutated(case: int) -> bytes:
    """The deck of a case. It depends on the number of the case alone."""
    draw = random.Random(f"{SEED} {case}")
    text = draw.choice(STORED) if draw.random() < 0.7 else drawn_deck(draw)
    for mutation in draw.choices([*MUTATIONS], [*MUTATIONS.values()], k=draw.choice([0, 1, 1, 1, 2, 2, 3, 4])):
        text = mutation(draw, text)
    return text


# ---- what the program says ----


def is_at(line: bytes, column: int, text: str) -> bool:
    """Whether a line has what is named at a column, counted from 1."""
    before, rest = line[:column - 1], line[column - 1:]
    named = re.fullmatch(r"'(.*)'(\.\.)?( is floating point, which isn't implemented)?", text)
    if named:
        return rest.startswith(named[1].encode().decode("unicode_escape").encode("latin-1"))
    return {
        "a carriage return": rest == b"\r",
        "a blank too many": rest[:1] == b" " and (not before or before[-1:] == b" " or len(rest) == 1),
        "a blank is missing": before[-1:] == b";",
        "a field is missing": not rest,
        "the line goes on": column == READ_OF_A_LINE,
    }.get(text, False)


def is_positioned(told: str, fault: str, deck: bytes) -> bool:
    """Whether what is told at a terminal is a fault line with a position, at which the refused line has what is named.
    A deck whose fault is that lines are missing or too many has no position."""
    if fault.endswith((": lines\n", ": no end\n")):
        return told == fault
    found = re.fullmatch(r"cdc6600: column (\d+): (.*)\n", told.removeprefix(fault))
    line = deck.split(b"\n")[int(re.findall(r"line (\d+)", fault)[0]) - 1]
    return bool(found and told.startswith(fault) and is_at(line, int(found[1]), found[2]))


def compare(program: Runner, deck: bytes, wanted: Ended, what: str) -> None:
    """Lists a deck."""
    assert program("list", given=deck, minutes=MINUTES) == wanted, f"{what}: {deck[:100_000]!r}"
    if wanted.told:
        told = told_at_terminal([program.path, "list"], deck)
        assert is_positioned(told, wanted.told, deck), f"{what}: {deck[:100_000]!r}: {told}"


def judge(program: Runner, deck: bytes, what: str) -> None:
    """Lists a deck, and if it is accepted the deck that its listing makes."""
    wanted = judged(deck)
    compare(program, deck, wanted, what)
    if wanted.status == 0:
        size = int(deck[len(b"core "):deck.index(b"\n")])
        compare(program, deck_again(wanted.printed, size), wanted, f"{what}, the deck of its listing")


def test_all_rows_are_in_the_deck() -> None:
    text = ALL_ROWS.decode()
    assert not [it for it in ROWS.values() if not re.search(rf"(?m)^code (.*; )?{it.pattern.pattern}(;|$)", text)]


@pytest.mark.parametrize("first", range(0, len(ALL_ROWS) + 1, AT_ONCE))
def test_beginnings(program: Runner, first: int) -> None:
    for length in range(first, min(first + AT_ONCE, len(ALL_ROWS) + 1)):
        for end in (b"", b"\nend\n"):
            judge(program, ALL_ROWS[:length] + end, f"the first {length} bytes with {end!r}")


@pytest.mark.parametrize("first", range(1, CASES + 1, AT_ONCE))
def test_mutations(program: Runner, first: int) -> None:
    for case in range(first, first + AT_ONCE):
        judge(program, mutated(case), f"case {case}")


@pytest.mark.parametrize("more, line, fault", [
    (b"end\n", 0, ""), (b"", MOST_LINES, "no end"), (b"at 0\n", MOST_LINES + 1, "lines"),
    (b"at 0\nend\n", MOST_LINES + 1, "lines"),
])
def test_most_lines(program: Runner, more: bytes, line: int, fault: str) -> None:
    wanted = Ended(1, told=f"cdc6600: E20 line {line}: {fault}\n") if fault else Ended(0)
    compare(program, b"core 32\nstart 0\n" + b"at 0\n" * (MOST_LINES - 3) + more, wanted, "the longest deck")

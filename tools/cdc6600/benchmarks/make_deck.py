"""Writes a deck for the benchmarks to standard output.

    tools/bench make-deck KIND

These are the kinds:

  repeating   straight-line code: 130,560 words of four one-parcel register instructions each, 522,240 instructions;
              eight words are repeated
  mixed       the same, where every instruction is drawn anew, from a fixed seed
  loop        a short loop of register instructions
  references  a loop over three tables of 16,384 drawn words each: three loads and two stores in ten instructions
  branches    a loop of 128 drawn words with a branch in each: of every kind, or a return jump to one of four
              subroutines. PL, NG, GE and LT go either way, as drawn words have it that change all the time

The loops go on for longer than a log can have instructions. There are 19 packages of the same contents, at 40, 60 and
so on to 500, one for each time that a log goes through the straight-line code. Registers X1 to X7 and B1 to B7 begin
with other numbers than 0.
"""

import math
import sys
from typing import Iterable, Iterator

from cdc6600.limits import MOST_INSTRUCTIONS, MOST_WORDS

KINDS = ("repeating", "mixed", "loop", "references", "branches")
# The kinds of straight-line code, and how many words and instructions that has.
STRAIGHT = ("repeating", "mixed")
WORDS = 130_560
INSTRUCTIONS = 4 * WORDS
# Where the packages are.
PACKAGES = [0o40 + 0o20 * number for number in range(19)]
# P 0, RA 1000, FL 377000, mode 0, and B1 to B7.
FIELDS = (
    "0", "1000000001000007", "377000000002000012", "3777772", "4000033", "5123456", "6000055", "7777700",
)
LOOP = (
    "71200000014600046000",  # SX2 B0+1; NO; NO
    "36334135362050776753",  # IX3 X3+X4; BX5 X3-X6; LX5 7; SX7 B5+B3
    "23045476006356013445",  # AX0 B4,X5; CX6 X0; SB5 X6+B0; BX4 X4-X5
    "37112126430311000001",  # IX1 X1-X2; BX6 X4+X3; NZ X1,1
)
REFERENCES = (
    "61100000006120000001",  # SB1 B0+0; SB2 B0+1
    "61300400004600046000",  # SB3 B0+40000; NO; NO
    "51110400005121100000",  # SA1 B1+40000; SA2 B1+100000
    "36612546105131140000",  # IX6 X1+X2; SA6 A1+B0; SA3 B1+140000
    "13736207035473066112",  # BX7 X3-X6; LX7 3; SA7 A3+B0; SB1 B1+B2
    "05130000020400000000",  # NE B1,B3,2; EQ B0,B0,0
)
TABLES = 49_152
SUBROUTINES = range(129, 137, 2)


class Draws:
    """Drawn numbers, and what is made of them."""

    def __init__(self) -> None:
        self.seed = 6600.0

    def below(self, bound: int) -> int:
        """The next number from 0 to below a bound. The figures of bench/README.md are of decks that were drawn by
        `awk`, which computes with floating-point numbers, so the product is rounded here too."""
        self.seed = math.fmod(self.seed * 1103515245.0 + 12345.0, 2147483648.0)
        return int(self.seed / 65536) % bound

    def digits(self, many: int) -> str:
        return "".join(str(self.below(8)) for _ in range(many))

    def register_instruction(self) -> str:
        """A one-parcel instruction of registers alone."""
        kind = self.below(16)
        if kind < 8:
            return f"1{self.digits(4)}"
        if kind < 10:
            return f"2{self.below(4)}{self.digits(3)}"
        if kind < 12:
            return f"3{6 + self.below(2)}{self.digits(3)}"
        if kind < 13:
            return f"4{3 if self.below(2) else 7}{self.digits(3)}"
        return f"{6 + self.below(2)}{3 + self.below(5)}{self.digits(3)}"

    def word_of_instructions(self) -> str:
        """A word of four such instructions."""
        return "".join(self.register_instruction() for _ in range(4))

    def jump(self, to: int) -> str:
        """A branch to a word, or a return jump to one of the subroutines after the loop."""
        kind = self.below(8)
        if kind < 2:
            return f"0100{SUBROUTINES[self.below(4)]:06o}"
        if kind < 5:
            return f"03{self.digits(2)}{to:06o}"
        return f"0{4 + self.below(4)}{self.digits(2)}{to:06o}"

    def sum(self) -> str:
        """A sum of X registers or an exclusive or, which keep drawn words as good as drawn."""
        return f"{'13' if self.below(2) else '36'}{1 + self.below(7)}{self.digits(2)}"


def straight(draws: Draws, is_mixed: bool) -> Iterator[str]:
    """Eight words, repeated, or as many drawn ones."""
    words = [draws.word_of_instructions() for _ in range(8)]
    for number in range(WORDS):
        yield f"word {draws.word_of_instructions() if is_mixed else words[number % 8]}"


def references(draws: Draws) -> Iterator[str]:
    yield from (f"word {word}" for word in REFERENCES)
    yield "at 41000"
    for _ in range(TABLES):
        yield f"word {draws.digits(20)}"


def branches(draws: Draws) -> Iterator[str]:
    """The loop of branches and the subroutines. The words stand in pairs: a branch that is taken goes over the rest of
    its pair."""
    for number in range(0, 128, 2):
        yield f"word 20101{draws.jump(number + 2)}{draws.sum()}"  # LX1 1, a branch and a sum
        yield f"word 63{1 + draws.below(7)}{draws.digits(2)}{draws.jump(number + 2)}{draws.sum()}"
    yield "word 04000000004600046000"  # EQ B0,B0,0; NO; NO
    for link in SUBROUTINES:
        yield "word 0"  # the link word
        yield f"word 20303361130400{link:06o}"  # LX3 3; IX1 X1+X3; EQ B0,B0 to the link word


def code(kind: str) -> Iterable[str]:
    draws = Draws()
    if kind == "loop":
        return [f"word {word}" for word in LOOP]
    if kind == "references":
        return references(draws)
    if kind == "branches":
        return branches(draws)
    return straight(draws, kind == "mixed")


def lines_of(kind: str) -> Iterator[str]:
    yield f"core {MOST_WORDS}"
    yield "at 40"
    for _ in PACKAGES:
        yield from (f"word {field}" for field in FIELDS)
        for n in range(8):
            yield f"word {n}{7 - n}{n}3{n}14{n}52{n}76{n}031{n}2{n}"
    yield "at 1000"
    yield from code(kind)
    yield from ("start 40", "show 40 517", "show 1000 1777", "show 41000 41777", "end")


def deck(kind: str) -> bytes:
    return "".join(f"{line}\n" for line in lines_of(kind)).encode()


def log(kind: str) -> str:
    """The longest log of such a deck: once through the straight-line code with each package, or a loop for as long as a
    log can be."""
    if kind not in STRAIGHT:
        return f"E40 I{MOST_INSTRUCTIONS}"
    return " ".join(f"E{package:o} I{INSTRUCTIONS}" for package in PACKAGES)


def main() -> int:
    words = sys.argv[1:]
    if len(words) != 1 or words[0] not in KINDS:
        print(f"{sys.argv[0]}: one of these kinds has to be named: {' '.join(KINDS)}", file=sys.stderr)
        return 2
    sys.stdout.buffer.write(deck(words[0]))
    return 0

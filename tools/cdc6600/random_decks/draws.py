"""Numbers that are drawn from a seed, the same ones on each machine."""

import random
from typing import Iterable, Sequence, TypeVar

INDEX_BITS, WORD_BITS = 18, 60
INDEX_ONES, WORD_ONES = (1 << INDEX_BITS) - 1, (1 << WORD_BITS) - 1
# The upper twelve bits by which branches tell words apart: out of range and indefinite; and their neighbours.
TELLING, BESIDE = (0o3777, 0o4000, 0o1777, 0o6000), (0o3776, 0o4001, 0o1776, 0o6001)
Choice = TypeVar("Choice")


class Draws:
    """Draws from a seed. Python keeps the numbers that `random.random` gives for a seed, and may change those of its
    other calls; so everything here is made of these."""

    def __init__(self, seed: str) -> None:
        self.random = random.Random(seed).random

    def below(self, number: int) -> int:
        """A number from 0 to one less than this."""
        return int(self.random() * number)

    def between(self, first: int, last: int) -> int:
        """A number from the first to the last, both counted."""
        return first + self.below(last - first + 1)

    def chance(self, share: float) -> bool:
        """Whether it comes out so, in such a share of cases."""
        return self.random() < share

    def one_of(self, choices: Sequence[Choice]) -> Choice:
        return choices[self.below(len(choices))]

    def shuffled(self, choices: Iterable[Choice]) -> list[Choice]:
        """These in a drawn order."""
        return sorted(choices, key=lambda _: self.random())

    def bits(self, count: int) -> int:
        """So many bits, as a number."""
        return self.below(1 << count // 2) << (count - count // 2) | self.below(1 << (count - count // 2))

    def signed(self, number: int, ones: int) -> int:
        """The number or its complement."""
        return ones - number if self.chance(0.5) else number

    def index(self) -> int:
        """A number of 18 bits: any, a small one, one with one bit, or a zero, of either sign."""
        number = self.one_of((self.bits(INDEX_BITS), self.below(0o100), 1 << self.below(INDEX_BITS), 0, self.below(8)))
        return self.signed(number, INDEX_ONES)

    def count(self) -> int:
        """A number of six bits that says how far to shift: any, or one about the length of a word."""
        return self.below(0o100) if self.chance(0.6) else self.between(0o72, 0o77)

    def long_count(self) -> int:
        """A number of 18 bits that says how far to shift, of either sign: up to 77, or not much more."""
        return self.signed(self.one_of((self.count(), self.between(0o74, 0o102), self.bits(10))), INDEX_ONES)

    def telling(self) -> int:
        """A number of 60 bits by whose upper twelve bits branches tell words apart, or nearly so."""
        return self.one_of(TELLING * 2 + BESIDE) << 48 | self.bits(48)

    def zero(self) -> int:
        """A number of 60 bits that is a zero, of either sign, or nearly so."""
        return self.signed(self.one_of((0, 0, 1, 1 << self.below(WORD_BITS))), WORD_ONES)

    def word(self) -> int:
        """A number of 60 bits: any, a small one, one with one bit, a run of ones, a zero, or a telling one, of either
        sign."""
        number = self.one_of(
            (
                self.bits(WORD_BITS),
                self.bits(WORD_BITS),
                self.below(0o1000),
                1 << self.below(WORD_BITS),
                (1 << self.below(WORD_BITS)) - 1,
                0,
                self.telling(),
            )
        )
        return self.signed(number, WORD_ONES)

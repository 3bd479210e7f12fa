"""A program with its part of memory: a table of drawn words, further words, its code, and words in which it keeps what
registers have."""

from typing import Sequence

from cdc6600.limits import PACKAGE_WORDS
from cdc6600.shared.instructions import Instruction

from .draws import INDEX_BITS, Draws
from .pieces import ALL, on_registers
from .programs import Code, Deck, Label, Package, spelled

TABLE = 32
LEAST_MEMORY = 32
STOP = spelled("00")
# The bit of the exit mode by which a reference out of range is a fault.
ADDRESS_BIT = 0o010000


class Job:
    """A program. Its words begin at an address of its field; `kept` of them come after its code, where A6 leads to."""

    def __init__(self, draws: Draws, begin: int = 0, table: int = TABLE, further: int = 0, kept: int = 0) -> None:
        self.draws, self.begin, self.kept = draws, begin, kept
        self.table = [draws.word() for _ in range(table)]
        self.code, self.field_length = Code(begin + table + further), Label()
        a, b, x = ([draw() for _ in range(8)] for draw in (draws.index, draws.index, draws.word))
        mode = draws.bits(INDEX_BITS) & ~ADDRESS_BIT
        self.package = Package(self.code.origin, em=mode, a=a, b=[0, *b[1:]], x=x)

    def load(self, among: Sequence[int] | None = None) -> Instruction:
        """Loads a drawn word of the table, or one of these of its words."""
        word = self.draws.one_of(among or range(len(self.table)))
        return spelled("51", i=self.draws.between(1, 5), j=0, K=self.begin + word)

    def work(self, count: int, xs: Sequence[int] = ALL, bs: Sequence[int] = ALL) -> None:
        """Adds so many instructions on registers, or a few more, and now and then a load between them."""
        for _ in range(count):
            self.code.add(*on_registers(self.draws, xs=xs, bs=bs))
            if self.draws.chance(0.12):
                self.code.add(self.load())

    def put(self, deck: Deck, package: int, ra: int, more: int = 0) -> int:
        """Puts its package and its words into a deck, in a field with so many more words; the first address after its
        own."""
        end = self.code.end + 1
        self.field_length.address = end + self.kept + more
        self.package.ra, self.package.fl = ra, self.field_length.address
        if self.kept:
            self.package.a[6] = end - 1
        deck.put_words(package, self.package.words(self.draws.bits))
        deck.put_words(ra + self.begin, self.table)
        deck.put(ra + self.code.origin, self.code.lines)
        return ra + end + self.kept


def alone(draws: Draws, job: Job) -> str:
    deck, package = Deck(), draws.below(0o40)
    end = job.put(deck, package, package + PACKAGE_WORDS + draws.below(0o40), draws.below(0o20))
    return deck.text(max(LEAST_MEMORY, end + draws.below(0o40)), package)

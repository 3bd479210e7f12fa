"""Programs at the edges: instructions on zeros and on the largest and the smallest numbers, shifts by the counts at
which they differ, and addresses at the ends of the field and of 18 bits. Each result is stored at once."""

from typing import Sequence

from cdc6600.shared.instructions import ROWS, Instruction

from .draws import INDEX_ONES, WORD_ONES, Draws
from .jobs import STOP, Job, alone
from .pieces import NOMINAL, mark, store_next, word_on_x
from .programs import Label, Less, spelled

PIECES, KEPT = (60, 90), 96
# The registers that pieces set and read, those of kept results and of other stores, and B7, which is -0.
LOADED, FIRST, SECOND, RESULT, STORED, ZERO = range(1, 6), 2, 3, 6, 7, 7
# The words and the indexes that are zeros, the largest and the smallest number, and the indexes beside the zeros.
LARGEST_WORD, LARGEST = WORD_ONES >> 1, INDEX_ONES >> 1
WORDS = (0, WORD_ONES, LARGEST_WORD, WORD_ONES - LARGEST_WORD)
INDEXES = (0, INDEX_ONES, LARGEST, INDEX_ONES - LARGEST)
BESIDE = (1, INDEX_ONES - 1)
# Addresses that are out of range in any field of these programs.
FAR = (INDEX_ONES, INDEX_ONES - 1, LARGEST, LARGEST + 1)
COUNTS, MAGNITUDES = (0, 1, 59, 60, 63), (0, 1, 59, 60, 63, 64, 65, 127, LARGEST)
# Where the table has words of the edges, and words whose lower 18 bits are an edge.
OF_WORDS, OF_INDEXES = range(20), range(20, 32)
ON_WORDS = tuple(code for code, row in ROWS.items() if row.unit in ("Boolean", "Long Add", "Divide"))
BY_COUNTS, SUMS = ("20", "21", "43"), tuple(code for code in ROWS if code[0] in "567")
ON_X, ON_B = tuple(code for code in ROWS if code[:2] == "03"), ("04", "05", "06", "07")


class Edging:
    """A program of pieces, each with an instruction at an edge."""

    def __init__(self, draws: Draws) -> None:
        self.draws, self.job, self.new_words = draws, Job(draws, kept=KEPT), list[Label]()
        self.code, table = self.job.code, self.job.table
        for at in OF_WORDS:
            table[at] = WORDS[at % len(WORDS)] if draws.chance(0.8) else draws.telling()
        for at in OF_INDEXES:
            table[at] = draws.bits(42) << 18 | draws.one_of(INDEXES + BESIDE)
        # A jump to 777777 that goes on at 0 stops there.
        table[0] = 0
        self.job.package.b[ZERO] = INDEX_ONES

    def load(self, number: int, among: Sequence[int]) -> None:
        self.code.add(spelled("51", i=number, j=0, K=self.draws.one_of(among)))

    def set_index(self, begin: str, number: int, value: int) -> None:
        """Sets an A or a B register, by the first digit of its row. A sum gives -0 only of two terms of -0."""
        self.code.add(spelled(f"{begin}1", i=number, j=ZERO if value == INDEX_ONES else 0, K=value))

    def keep(self, code: str, *copies: Instruction, **fields: int | Label) -> None:
        """An instruction of this row on the registers that pieces set, and the store of its result."""
        fields = {"i": RESULT, "j": FIRST, "k": SECOND, "K": self.draws.one_of(INDEXES), **fields}
        self.code.add(spelled(code, **fields), *copies, store_next(RESULT))

    def on_words(self) -> None:
        """An instruction on words."""
        self.load(FIRST, OF_WORDS)
        self.load(SECOND, OF_WORDS)
        self.keep(self.draws.one_of(ON_WORDS))

    def by_count(self) -> None:
        """A mask, or a shift by the count of its text."""
        self.load(FIRST, OF_WORDS)
        self.code.add(spelled("10", i=RESULT, j=FIRST))
        self.keep(self.draws.one_of(BY_COUNTS), jk=self.draws.one_of(COUNTS))

    def by_magnitude(self) -> None:
        """A shift by a B register."""
        self.load(SECOND, OF_WORDS)
        self.set_index("6", FIRST, self.draws.signed(self.draws.one_of(MAGNITUDES), INDEX_ONES))
        self.keep(self.draws.one_of(NOMINAL))

    def sum(self) -> None:
        """A sum for A0, for a B register or for an X register."""
        code = self.draws.one_of(SUMS)
        self.load(FIRST, OF_INDEXES)
        for number in (FIRST, SECOND):
            self.set_index("6", number, self.draws.one_of(INDEXES))
        self.set_index("5", 0, self.draws.one_of(INDEXES))
        number = {"5": 0, "6": self.draws.one_of((0, FIRST)), "7": RESULT}[code[0]]
        # A difference to +0 keeps a -0, and a sum doesn't.
        copies = {"5": [spelled("75", i=RESULT, j=0, k=0)], "6": [spelled("77", i=RESULT, j=number, k=0)]}
        self.keep(code, *copies.get(code[0], []), i=number, j=0 if "Aj" in ROWS[code].operands else FIRST)

    def branch(self) -> None:
        """A branch over a mark."""
        target = Label()
        if self.draws.chance(0.6):
            self.load(FIRST, OF_WORDS)
            self.code.add(spelled(self.draws.one_of(ON_X), j=FIRST, K=target))
        else:
            for number in (FIRST, SECOND):
                self.set_index("6", number, self.draws.one_of(INDEXES))
            self.code.add(spelled(self.draws.one_of(ON_B), i=FIRST, j=SECOND, K=target))
        self.code.add(*mark(self.draws))
        self.code.here(target)

    def jump(self) -> None:
        """A jump over a mark, by a sum that may go around the end of 18 bits."""
        target, part = Label(), self.draws.one_of(INDEXES + BESIDE)
        self.set_index("6", FIRST, part)
        self.code.add(spelled("02", i=FIRST, K=Less(target, part)), *mark(self.draws))
        self.code.here(target)

    def reference(self) -> None:
        """A load or a store of the field's last word, of the one after it, or of an address out of range."""
        length = self.job.field_length
        addresses: list[int | Label] = [Less(length, 1), length, *FAR]
        address = self.draws.one_of(addresses)
        number = self.draws.one_of((*LOADED, STORED))
        self.code.add(spelled("51", i=number, j=0, K=address), spelled("10", i=RESULT, j=number), store_next(RESULT))

    def held_word(self) -> None:
        """A store over the word that is held. Its other instructions are issued as they were fetched."""
        new, held = Label(), Label()
        self.new_words.append(new)
        self.code.add(spelled("51", i=FIRST, j=0, K=new), spelled("10", i=STORED, j=FIRST))
        self.code.here(held)
        self.code.add(spelled("51", i=STORED, j=0, K=held), *word_on_x(self.draws)[:1], store_next(RESULT))

    def finish(self) -> str:
        """Ends by a stop, or by a jump to an address out of range, and puts the new words of code behind it."""
        target = self.draws.one_of(FAR)
        ends = (STOP, spelled("02", i=0, K=target), spelled("02", i=ZERO, K=INDEX_ONES), spelled("010", K=target))
        self.code.add(self.draws.one_of(ends))
        for label in self.new_words:
            self.code.here(label)
            self.code.add(*word_on_x(self.draws))
        return alone(self.draws, self.job)


def edges(draws: Draws) -> str:
    program = Edging(draws)
    pieces = (program.on_words, program.by_count, program.by_magnitude, program.sum, program.sum, program.branch,
              program.jump, program.reference, program.held_word)
    for _ in range(draws.between(*PIECES)):
        draws.one_of(pieces)()
    return program.finish()

"""Programs that branch: loops that end, jumps ahead, and subroutines."""

from .draws import INDEX_ONES, Draws
from .jobs import STOP, Job, alone
from .pieces import keep, mark
from .programs import Label, Less, spelled

KEPT = 256
DEEPEST = 2
# The words of the table that are zeros or nearly so, and those with telling upper bits; which are for which test.
ZEROS, TELLING = range(6), range(6, 18)
X_TESTS: dict[str, range | None] = {
    **dict.fromkeys(("030", "031"), ZEROS),
    **dict.fromkeys(("032", "033")),
    **dict.fromkeys(("034", "035", "036", "037"), TELLING),
}
# A loop counts in one of these B registers, by how deep it is, or in this X register.
COUNTERS, X_COUNTER = (7, 6, 5), 7
FREE_B, FREE_X = range(1, 5), range(6)
B_TESTS = ("04", "05", "06", "07")
MINUS_ONE = INDEX_ONES - 1


class Branching:
    """A program of blocks. Its subroutines come first, and call those before them."""

    def __init__(self, draws: Draws) -> None:
        self.draws, self.job = draws, Job(draws, kept=KEPT)
        self.code, self.subroutines, self.is_x_counting = self.job.code, list[Label](), False
        self.job.table[: len(ZEROS) + len(TELLING)] = [draws.zero() for _ in ZEROS] + [draws.telling() for _ in TELLING]

    def work(self) -> None:
        """Works on registers in which no loop counts, and shows what came of it."""
        self.job.work(self.draws.between(1, 3), xs=FREE_X, bs=FREE_B)
        if self.draws.chance(0.6):
            self.code.add(*keep(self.draws))

    def test(self, target: Label) -> None:
        """A branch on a register, whose outcome is drawn too: on a word of the table, or on small numbers that are
        equal now and then."""
        draws = self.draws
        if draws.chance(0.6):
            code = draws.one_of(list(X_TESTS))
            load = self.job.load(X_TESTS[code])
            self.code.add(load, spelled(code, j=load.fields["i"], K=target))
            return
        i, j = draws.below(5), draws.below(5)
        value = draws.index()
        values = {i: value, j: value if draws.chance(0.3) else draws.index()}
        self.code.add(*(spelled("61", i=number, j=0, K=value) for number, value in values.items()))
        self.code.add(spelled(draws.one_of(B_TESTS), i=i, j=j, K=target))

    def skip(self, _: int) -> None:
        """A branch over some instructions, which leave a mark."""
        target = Label()
        self.test(target)
        self.work()
        self.code.add(*mark(self.draws))
        self.code.here(target)

    def jump(self, _: int) -> None:
        """A jump by a sum of a register and a number."""
        draws, target, i, part = self.draws, Label(), self.draws.below(5), self.draws.index()
        if i:
            self.code.add(spelled("61", i=i, j=0, K=part))
        self.code.add(spelled("02", i=i, K=Less(target, part if i else 0)))
        self.code.add(*mark(draws))
        self.code.here(target)

    def call(self, _: int) -> None:
        """A call of a subroutine, which comes back to the next word."""
        if self.subroutines:
            self.code.add(spelled("010", K=self.draws.one_of(self.subroutines)))
            self.code.fill()
            self.code.add(*keep(self.draws))

    def loop(self, deep: int) -> None:
        """A loop, counted in a register of its own."""
        if self.is_x_counting or self.draws.chance(0.6):
            self.loop_by_b(deep)
        else:
            self.is_x_counting = True
            self.loop_by_x(deep)
            self.is_x_counting = False

    def loop_by_b(self, deep: int) -> None:
        """A loop that counts down to zero, or up from a negative number."""
        counter, turns, begin = COUNTERS[deep], self.draws.between(2, 4), Label()
        is_up, form = self.draws.chance(0.3), self.draws.below(3)
        self.code.add(spelled("61", i=counter, j=0, K=INDEX_ONES - turns if is_up else turns))
        self.code.here(begin)
        self.blocks(deep + 1)
        self.code.add(spelled("61", i=counter, j=counter, K=1 if is_up else MINUS_ONE))
        if form == 0:
            self.code.add(spelled("05", i=counter, j=0, K=begin))
        else:
            self.code.add(spelled("07", i=counter, j=0, K=begin) if is_up else spelled("07", i=0, j=counter, K=begin))

    def loop_by_x(self, deep: int) -> None:
        """A loop that counts down to zero or below it."""
        turns, begin = self.draws.between(2, 4), Label()
        self.code.add(spelled("71", i=X_COUNTER, j=0, K=turns))
        self.code.here(begin)
        self.blocks(deep + 1)
        self.code.add(spelled("72", i=X_COUNTER, j=X_COUNTER, K=MINUS_ONE))
        self.code.add(spelled(self.draws.one_of(("031", "032")), j=X_COUNTER, K=begin))

    def blocks(self, deep: int) -> None:
        """Some blocks, one after the other."""
        kinds = [self.skip, self.skip, self.jump, self.call] + [self.loop] * (2 * (deep < DEEPEST))
        for _ in range(self.draws.between(1, 3)):
            self.work()
            self.draws.one_of(kinds)(deep)

    def subroutine(self) -> None:
        """A subroutine, whose first word gets the way back."""
        draws, entry = self.draws, Label()
        self.code.here(entry)
        self.code.add(STOP)
        self.code.fill()
        self.work()
        draws.one_of((self.skip, self.jump, self.call))(DEEPEST)
        i = draws.below(8)
        back = (spelled("02", i=0, K=entry), spelled("04", i=i, j=i, K=entry), spelled("06", i=i, j=i, K=entry))
        self.code.add(draws.one_of(back))
        self.subroutines.append(entry)

    def main(self) -> None:
        """The blocks that come first, up to the stop."""
        self.job.package.p = self.code.here()
        for _ in range(self.draws.between(6, 8)):
            self.blocks(0)
        self.code.add(STOP)


def branches(draws: Draws) -> str:
    program = Branching(draws)
    for _ in range(draws.between(2, 3)):
        program.subroutine()
    program.main()
    return alone(draws, program.job)

"""Programs that go straight on: on registers, and with references of every form."""

from .draws import INDEX_ONES, Draws
from .jobs import STOP, Job, alone
from .pieces import ON_X, keep, on_registers, word_on_x
from .programs import Label, spelled

KEPT = 64
# No program here has more words of code.
MOST_CODE = 0o1000
LOADED, STORED, COUNTERS = range(1, 6), (6, 7), range(1, 8)
# The forms of addresses by the second digit of a code.
A_AND_K, B_AND_K, X_AND_K, X_AND_B, A_AND_B, A_LESS_B, TWO_BS, B_LESS_B = range(8)
LESS = (A_LESS_B, B_LESS_B)


def registers(draws: Draws) -> str:
    """The deck of a program on registers alone, which keeps what they have."""
    job = Job(draws, kept=2 * KEPT)
    for _ in range(draws.between(60, 90)):
        job.work(draws.between(2, 4))
        job.code.add(*keep(draws))
    job.code.add(STOP)
    return alone(draws, job)


def less(number: int, other: int) -> int:
    """A number less another one: added to the other one, it gives the number."""
    return (number - other) % INDEX_ONES


class Referring:
    """A program that loads and stores, by addresses of every form. It follows what its A and B registers have, where
    that is known."""

    def __init__(self, draws: Draws) -> None:
        self.draws, self.job = draws, Job(draws, further=2 * KEPT)
        self.code, package = self.job.code, self.job.package
        self.a, self.b, self.new_words = dict(enumerate(package.a)), dict(enumerate(package.b)), list[Label]()

    def set_b(self, number: int, value: int) -> None:
        self.code.add(spelled("61", i=number, j=0, K=value))
        self.b[number] = value

    def set_x(self, value: int) -> int:
        """Sets the lower part of a drawn X register that isn't stored; its number."""
        number = self.draws.below(6)
        self.code.add(spelled("71", i=number, j=0, K=value))
        return number

    def address(self) -> int:
        """A drawn address: mostly in the table or among the words that are kept; else anywhere but in the code."""
        here, code = self.code.origin, range(self.code.origin, self.code.origin + MOST_CODE)
        if self.draws.chance(0.8):
            return self.draws.below(here)
        address = self.draws.index() % INDEX_ONES
        return self.address() if address in code else address

    def known(self, form: int) -> tuple[int, int]:
        """A register whose value the form takes first, with that value."""
        of_a = form in (A_AND_K, A_AND_B, A_LESS_B)
        return self.draws.one_of(sorted((self.a if of_a else self.b).items()))

    def fields_for(self, form: int, address: int) -> dict[str, int]:
        """The fields j, k and K by which a form gives an address; what they need is set before."""
        j, first = self.known(form)
        if form in (A_AND_K, B_AND_K):
            return {"j": j, "K": less(address, first)}
        if form == X_AND_K:
            part = self.draws.index()
            return {"j": self.set_x(part), "K": less(address, part)}
        if form == X_AND_B:
            return {"j": self.set_x(less(address, first)), "k": j}
        k = self.draws.one_of([n for n in COUNTERS if n != j])
        self.set_b(k, less(first, address) if form in LESS else less(address, first))
        return {"j": j, "k": k}

    def refer(self, number: int, address: int) -> None:
        """Sets an A register to an address by a drawn form: a load or a store, or for A0 neither."""
        form = self.draws.below(8)
        fields = self.fields_for(form, address)
        self.code.add(spelled(f"5{form}", i=number, **fields))
        self.a[number] = address

    def load(self) -> None:
        """Loads a word, and uses it."""
        number = self.draws.one_of(LOADED)
        self.refer(number, self.address())
        sum_or_xor = self.draws.one_of(("13", "36"))
        self.code.add(spelled(sum_or_xor, i=self.draws.one_of(STORED), j=number, k=self.draws.below(8)))

    def store(self) -> None:
        """Stores a result, or what was stored before once more."""
        if self.draws.chance(0.5):
            self.code.add(*on_registers(self.draws, ON_X, xs=STORED))
        self.refer(self.draws.one_of(STORED), self.address())

    def set_a0(self) -> None:
        self.refer(0, self.address())

    def load_code(self) -> int:
        """Loads a new word of code; the number of its X register."""
        number, label = self.draws.one_of(LOADED), Label()
        self.new_words.append(label)
        self.code.add(spelled("51", i=number, j=0, K=label))
        self.a.pop(number, None)
        return number

    def store_code(self, number: int, target: Label) -> None:
        """Stores the loaded word over another one."""
        self.code.add(spelled("10", i=6, j=number), spelled("51", i=6, j=0, K=target))
        self.a.pop(6, None)

    def store_into_code(self) -> None:
        """A loop of two turns. The first one stores a new word over one that comes later, and one over the word that is
        held, which is issued as it was; so the second turn has both."""
        counter, begin, later, held = self.draws.one_of(COUNTERS), Label(), Label(), Label()
        self.set_b(counter, 2)
        self.code.here(begin)
        self.store_code(self.load_code(), later)
        number = self.load_code()
        self.code.here(held)
        self.store_code(number, held)
        self.code.here(later)
        self.code.add(*word_on_x(self.draws))
        self.code.add(spelled("61", i=counter, j=counter, K=less(0, 1)), spelled("05", i=counter, j=0, K=begin))
        self.b[counter] = 0

    def finish(self) -> str:
        """Stops, and puts the new words of code behind it."""
        self.code.add(STOP)
        for label in self.new_words:
            self.code.here(label)
            self.code.add(*word_on_x(self.draws))
        return alone(self.draws, self.job)


def references(draws: Draws) -> str:
    program = Referring(draws)
    turns = [program.load] * draws.between(15, 25) + [program.store] * draws.between(15, 25)
    turns += [program.set_a0] * 3 + [program.store_into_code] * 2
    for turn in draws.shuffled(turns):
        turn()
    return program.finish()

"""Programs that end in every way: by a stop, a refused opcode, an instruction across the end of its word, a fetch or a
reference out of range."""

from cdc6600.limits import PACKAGE_WORDS
from cdc6600.shared.instructions import ROWS

from .draws import Draws
from .jobs import ADDRESS_BIT, STOP, Job
from .pieces import SHORT_ON_X, keep, on_registers
from .programs import Deck, Label, Less, Parcel, spelled

SIZE, TABLE, KEPT = 1024, 8, 8
# The first two digits of the codes of two parcels.
LONG = tuple(dict.fromkeys(code[:2] for code, row in ROWS.items() if row.is_long))
REFUSED = tuple(f"{code:02o}" for code in range(8, 64) if not any(row.startswith(f"{code:02o}") for row in ROWS))
REFUSED_JUMPS = tuple(f"01{digit}" for digit in range(1, 8))
REFERRING = range(1, 8)


class Ending:
    """The ways in which a program ends. Each adds to its code, and answers after how many instructions it has ended."""

    def __init__(self, draws: Draws, job: Job) -> None:
        self.draws, self.job, self.code, self.more = draws, job, job.code, 0

    def out_of_range(self) -> int | Label:
        """An address out of range: the field's length, one past the memory, or any large one."""
        if self.draws.chance(0.4):
            return self.job.field_length
        return self.draws.between(SIZE, 0o777776)

    def short(self, room: int) -> None:
        """Adds instructions of one parcel until so many are left in the word."""
        while self.code.room != room:
            self.code.add(*on_registers(self.draws, SHORT_ON_X))

    def stop(self) -> int:
        self.code.add(STOP)
        return self.code.issued

    def refused(self) -> int:
        code = self.draws.one_of(self.draws.one_of((REFUSED, REFUSED_JUMPS)))
        digits = (code + "".join(str(self.draws.below(8)) for _ in range(3)))[:5]
        self.code.add(Parcel(int(digits, 8)))
        return self.code.issued

    def straddle(self) -> int:
        """An instruction that crosses the end of its word."""
        self.short(1)
        digits = self.draws.one_of(LONG) + "0" + str(self.draws.below(8)) + str(self.draws.below(8))
        self.code.add(Parcel(int(digits, 8)))
        return self.code.issued

    def fault_mode(self) -> None:
        """At times the mode in which references out of range are faults. Fetches out of range are none."""
        if self.draws.chance(0.5):
            self.job.package.em |= ADDRESS_BIT

    def end_of_field(self) -> int:
        """The fetch of the word after the field's last one."""
        self.fault_mode()
        self.short(0)
        return self.code.issued + 1

    def jump_out(self) -> int:
        """A jump out of range, or a return jump whose word isn't stored."""
        target = self.out_of_range()
        jumps = (spelled("02", i=0, K=target), spelled("04", i=3, j=3, K=target), spelled("010", K=target))
        self.code.add(self.draws.one_of(jumps))
        return self.code.issued + 1

    def past_memory(self) -> int:
        """A load or a store in the field that is past the memory, and a jump there."""
        self.more = self.draws.between(0o200000, 0o377777)
        address = self.draws.between(SIZE, 0o177777)
        self.code.add(spelled("51", i=self.draws.one_of(REFERRING), j=0, K=address))
        self.code.add(*keep(self.draws), spelled("02", i=0, K=address))
        return self.code.issued + 1

    def fault(self) -> int:
        """A reference out of range that is a fault, at the end of its word."""
        self.job.package.em |= ADDRESS_BIT
        reference = spelled("51", i=self.draws.one_of(REFERRING), j=0, K=self.out_of_range())
        if self.draws.chance(0.3):
            reference = spelled("010", K=self.out_of_range())
        self.short(2)
        self.code.add(reference)
        return self.code.issued

    def fault_in_memory(self) -> int:
        """A reference past the memory that is a fault."""
        self.more = self.draws.between(0o200000, 0o377777)
        self.job.package.em |= ADDRESS_BIT
        self.short(2)
        self.code.add(spelled("51", i=self.draws.one_of(REFERRING), j=0, K=self.draws.between(SIZE, 0o177777)))
        return self.code.issued

    def no_fault(self) -> int:
        """References in the field's last word and after it, in a mode without faults, and a stop."""
        for number in self.draws.shuffled(REFERRING)[:3]:
            last = self.draws.one_of((self.job.field_length, Less(self.job.field_length, 1)))
            self.code.add(spelled("51", i=number, j=0, K=last))
        self.code.add(*keep(self.draws), STOP)
        issued = self.code.issued
        self.code.fill()
        return issued

    def late_fault(self) -> int:
        """A fault in the middle of a word. How much is issued after it isn't said; so nothing comes after this."""
        self.job.package.em |= ADDRESS_BIT
        self.code.add(spelled("51", i=self.draws.one_of(REFERRING), j=0, K=self.out_of_range()))
        self.job.work(6)
        self.code.add(STOP)
        return 0


# The ways after which another program may come.
WAYS = (
    Ending.stop, Ending.refused, Ending.refused, Ending.straddle, Ending.end_of_field, Ending.jump_out,
    Ending.past_memory, Ending.fault, Ending.fault, Ending.fault_in_memory, Ending.no_fault,
)


def faults(draws: Draws) -> str:
    """The deck of some programs that end in different ways, one after the other."""
    deck, issued, end = Deck(), 0, draws.below(0o20)
    ways = [*draws.shuffled(WAYS)[: draws.between(7, 11)], draws.one_of((*WAYS, Ending.late_fault, Ending.late_fault))]
    start = end
    for number, way in enumerate(ways):
        package, job = end, Job(draws, table=TABLE, further=KEPT)
        job.package.a[6] = TABLE - 1
        job.work(draws.between(4, 12))
        job.code.add(*keep(draws))
        ending = Ending(draws, job)
        if number:
            deck.ask(package, issued)
        issued += way(ending)
        end = job.put(deck, package, package + PACKAGE_WORDS, ending.more)
    return deck.text(SIZE, start)

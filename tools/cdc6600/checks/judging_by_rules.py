"""A second reading of the rules, for the checks alone: what an event is refused for in a state, and which reservations
hold it back.

The tests and their order are those of the table of events in docs/machine/rules.md. What an event is refused for by its
budget or for want of memory can't be told by a state.
"""

from dataclasses import dataclass
from typing import Callable, Iterable, Iterator

from cdc6600.limits import BANKS, PACKAGE_WORDS

from .states_by_rules import RUNNING, Reading, Reservation
from .texts_by_rules import KINDS, kind_of, operands_of, results_of, stores

SAID = {
    "E1": "halted", "E2": "faulted", "E3": "budget", "E4": "branch pending", "E5": "exchange waiting",
    "E6": "fetch waits", "E7": "unit busy", "E8": "result reserved", "E9": "operand awaited", "E10": "result held",
    "E11": "hopper full", "E12": "out of turn", "E13": "bank busy", "E14": "older at address", "E15": "nothing",
    "E17": "exchange busy", "E18": "not drained", "E19": "package range", "E21": "out of memory", "E25": "mid word",
    "E26": "peripheral waits", "E27": "peripheral range",
}


@dataclass(frozen=True)
class Refusal:
    """The number of a refusal, what its answer names, and the reservations that hold the event back."""

    code: str
    named: str = ""
    rows: tuple[int, ...] = ()

    @property
    def answer(self) -> str:
        """The line that the program answers."""
        return f"{self.code} {SAID[self.code]} {self.named}".rstrip(" ")


Refusals = Iterator[Refusal]


class Judge:
    """What each event is answered in the state of a reading."""

    def __init__(self, reading: Reading) -> None:
        self.state, self.rows, self.replays = reading.state, reading.rows, reading.replays
        self.log, self.core = reading.log.text, reading.session.core

    def refusal(self, event: str) -> Refusal | None:
        """The refusal of an event, or none where it is made."""
        kind, *fields = event.split(" ")
        tests: dict[str, Callable[..., Refusals]] = {
            "issue": self.issue, "read": self.read, "finish": self.finish, "store": self.store, "accept": self.accept,
            "return": self.load_return, "bank": self.bank, "ask": self.ask, "exchange": self.exchange,
            "ppread": self.access, "ppwrite": self.access,
        }
        return next(tests[kind](*fields), None) if kind in tests else None

    @property
    def is_held(self) -> bool:
        """Whether a word is held, for E5, E6 and E25. While Branch is reserved nobody can say."""
        return self.replays.field(self.log, 0, 5) != "none"

    @property
    def next_text(self) -> str:
        """The text of the next instruction, empty where its word is fetched out of range."""
        return self.replays.instruction(self.log) or ""

    def holder(self, unit: str, phase: str) -> int:
        """The reservation of a unit that is in this phase, or 0."""
        row = self.state.units.get(unit, 0)
        return row if self.state.phases.get(row) == phase else 0

    def issue(self) -> Refusals:
        """E1, E2 and E4 to E8."""
        state = self.state
        if state.halt != RUNNING:
            yield Refusal("E1", state.halt)
        if state.fault:
            yield Refusal("E2", rows=(state.fault,))
        if "branch" in state.units:
            yield Refusal("E4", rows=(state.units["branch"],))
        if state.asked and not self.is_held:
            yield Refusal("E5")
        delaying = () if self.is_held else self.delaying()
        if delaying:
            yield Refusal("E6", rows=delaying)
        yield from self.first_order()

    def delaying(self) -> tuple[int, ...]:
        """The stores that a fetch of the word at P waits for, for E6: those to come to their store events, and those
        to it."""
        address = self.replays.absolute(self.log, self.replays.number(self.log, 0, 1))
        if address is None:
            return ()
        entered = [row for row in self.state.places.values() if self.rows[row].address == address]
        return self.storing([*self.state.units.values(), *entered])

    def storing(self, rows: Iterable[int]) -> tuple[int, ...]:
        """Those of some reservations that store, oldest first."""
        return tuple(row for row in sorted(rows) if stores(self.rows[row].text))

    def first_order(self) -> Refusals:
        """E7 and E8, by the next instruction."""
        text = self.next_text
        units = KINDS.get(kind_of(text) or "", ())
        holders = [self.state.units.get(unit, 0) for unit in units]
        if units and all(holders):
            yield Refusal("E7", units[0], tuple(sorted(holders)))
        for register in results_of(text):
            if register in self.state.registers:
                yield Refusal("E8", register, (self.state.registers[register],))

    def read(self, unit: str) -> Refusals:
        """E15 and E9."""
        row = self.holder(unit, "issued")
        if not row:
            yield Refusal("E15")
        for register, producer in self.awaited(row):
            yield Refusal("E9", register, (producer,))

    def awaited(self, row: int) -> list[tuple[str, int]]:
        """E9: the operands of a reservation that are still to come of earlier ones, each with its producer."""
        operands = operands_of(self.rows[row].text)
        found = [(register, self.state.registers.get(register, row)) for register in operands]
        return [(register, producer) for register, producer in found if producer < row]

    def finish(self, unit: str) -> Refusals:
        """E15."""
        if not self.holder(unit, "read"):
            yield Refusal("E15")

    def store(self, unit: str) -> Refusals:
        """E15 and E10 to E12."""
        row = self.holder(unit, "finished")
        if not row:
            yield Refusal("E15")
        it = self.rows[row]
        yield from self.third_order(row, results_of(it.text)[:1])
        if it.address is not None and self.state.free_place is None:
            yield Refusal("E11", rows=tuple(sorted(self.state.places.values())))
        earlier = tuple(other for other in self.before(row) if self.rows[other].refers)
        if it.refers and earlier:
            yield Refusal("E12", rows=earlier)

    def before(self, row: int) -> list[int]:
        """The reservations in units that were issued before one, for E10 and E12."""
        return sorted(other for other in self.state.units.values() if other < row)

    def third_order(self, row: int, registers: Iterable[str]) -> Refusals:
        """E10, for the registers that a reservation is to write."""
        waiting = [other for other in self.before(row) if self.state.phases[other] == "issued"]
        for register in registers:
            readers = tuple(other for other in waiting if register in operands_of(self.rows[other].text))
            if readers:
                yield Refusal("E10", register, readers)

    def accept(self, place: str) -> Refusals:
        """E15, E13 and E14."""
        row = self.state.places.get(int(place), 0)
        if not row:
            yield Refusal("E15")
        it = self.rows[row]
        bank = (it.address or 0) % BANKS  # E13
        if bank in self.state.banks:
            yield Refusal("E13", str(bank), (self.state.banks[bank],))
        before = sorted(other for other in self.state.places.values() if other < row)
        older = tuple(other for other in before if self.is_in_order(self.rows[other], it))
        if older:
            yield Refusal("E14", rows=older)

    @staticmethod
    def is_in_order(older: Reservation, it: Reservation) -> bool:
        """Whether two references have to keep their order, for E14: they are to one word, and one of them stores."""
        return older.address == it.address and (stores(older.text) or stores(it.text))

    def load_return(self, channel: str) -> Refusals:
        """E15 and E10."""
        row = self.state.channels.get(int(channel), 0)
        if row not in self.state.loaded:
            yield Refusal("E15")
        yield from self.third_order(row, [f"X{int(channel)}"])

    def bank(self, bank: str) -> Refusals:
        """E15."""
        if int(bank) not in self.state.banks:
            yield Refusal("E15")

    def ask(self, package: str) -> Refusals:
        """E17 and E19."""
        if self.state.asked:
            yield Refusal("E17")
        if int(package, 8) + PACKAGE_WORDS > self.core:
            yield Refusal("E19")

    def exchange(self) -> Refusals:
        """E15, E18 and E25."""
        if not self.state.asked:
            yield Refusal("E15")
        if self.state.pending:
            yield Refusal("E18", rows=tuple(self.state.pending))
        if self.state.halt == RUNNING and not self.state.fault and self.is_held:
            yield Refusal("E25")

    def access(self, address: str, _word: str = "") -> Refusals:
        """E26 and E27."""
        to_come = [row for row in self.state.units.values() if self.rows[row].refers]
        waiting = [row for row in self.state.places.values() if self.rows[row].address == int(address, 8)]
        if to_come or waiting:
            yield Refusal("E26", rows=tuple(sorted([*to_come, *waiting])))
        if int(address, 8) >= self.core:
            yield Refusal("E27")


def values_of(judge: Judge) -> dict[str, str]:
    """The values in the state of a judge, in octal digits: by the names of the registers, and by the addresses of the
    words that the deck shows, in six digits.

    They are those that `replay` prints. Each result is in its register, and each stored word in memory, unless its
    reservation is pending. Then the register or the word still has the value from before that reservation's issue: no
    other pending reservation has the same result, and a bank takes the references to one word in order."""
    replays, state, log = judge.replays, judge.state, judge.log
    values = dict(replays.values(log))
    for register, row in state.registers.items():
        values[register] = replays.values(judge.rows[row].before)[register]
    for row in storing(judge):
        address = f"{judge.rows[row].address:06o}"
        if address in values:
            values[address] = replays.values(judge.rows[row].before)[address]
    return values


def storing(judge: Judge) -> list[int]:
    """The pending reservations that are to store a word, youngest first. Of several for one word the oldest counts."""
    state, rows = judge.state, judge.rows
    waiting = {*state.units.values(), *state.places.values()}
    return sorted((row for row in waiting if stores(rows[row].text) and rows[row].address is not None), reverse=True)


def text_now(judge: Judge) -> str:
    """The text of the next instruction by the word that memory has now, empty if that is out of range. A pending store
    to the word changes it later."""
    replays, log = judge.replays, judge.log
    address = None if judge.is_held else replays.absolute(log, replays.number(log, 0, 1))
    waiting = [row for row in storing(judge) if judge.rows[row].address == address]
    if not waiting:
        return judge.next_text
    return replays.listed(replays.word(judge.rows[waiting[-1]].before, f"{address:o}"), 0)

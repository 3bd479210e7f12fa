"""A second reading of the rules, for the checks alone: what each part of the machine has after each event of a session.

A state goes by the events and their answers, and by the rules of docs/machine/rules.md where the answers don't tell:
which places references take, which banks are busy, which registers are results still to come, whether the machine is
halted or faulted. It asks no machine that is kept: what such a machine tells is compared with it.
"""

import copy
from dataclasses import dataclass, field
from functools import lru_cache
from typing import Iterable, Iterator, Sequence

from cdc6600.drawing import following
from cdc6600.drawing.following import DUMP_LINES, WORDS, Fault, Log, Session, plain
from cdc6600.limits import BANKS
from cdc6600.shared.program import Program

from .texts_by_rules import LINK, LOADED, results_of, stores

PLACES = 4
# How far the reservation of a unit is, by its last event.
PHASES = {"issue": "issued", "read": "read", "finish": "finished"}
STOPPED, RUNNING = "stop", "running"
# The bit of exit mode with which a reference out of range sets the fault flag.
ADDRESS_MODE = 0o10000
# A parcel with the instruction that does nothing.
PASS = "46000"


class Replays(following.Replays):
    """What the program prints for the session's deck and a log, and the texts of instructions."""

    def field(self, log: str, line: int, place: int) -> str:
        """A field of a line of the dump after a log, both numbered from 0."""
        return self.dump(log)[line].split()[place]

    @lru_cache(maxsize=None)
    def values(self, log: str) -> dict[str, str]:
        """The digits of the registers after a log, by their names, and of the words that the deck shows, by their
        addresses in six digits: of the first ones of them."""
        dump = self.dump(log)
        values = {f"{kind}{number}": digits for kind, line in (("A", dump[3]), ("B", dump[4]))
                  for number, digits in enumerate(line.split()[1:])}
        pairs = [line.split() for line in dump[5 : DUMP_LINES - 1]]
        pairs += [line.split()[1:] for line in dump[DUMP_LINES - 1 : -1][:WORDS]]
        return values | {name: digits for name, digits in pairs}

    def halt(self, log: str) -> str:
        """How the machine is halted after a log, or `running`."""
        return self.dump(log)[1].removeprefix("HALT ").split(" FAULT ")[0]

    @lru_cache(maxsize=None)
    def word(self, log: str, address: str) -> str:
        """A word of memory after a log, as its digits."""
        lines = [*self.session.deck, f"show {address} {address}", "end", ""]
        return self.program.replay(log, "\n".join(lines).encode("latin-1")).printed.decode().splitlines()[-2][9:]

    def absolute(self, log: str, address: int) -> int | None:
        """The absolute address that an address has after a log, or none where it is out of range."""
        absolute = address + self.number(log, 2, 1)
        return absolute if address < self.number(log, 2, 3) and absolute < self.session.core else None

    @lru_cache(maxsize=None)
    def instruction(self, log: str) -> str | None:
        """The text of the instruction that is issued next after a log, as a listing has it, or none where its word
        would be fetched out of range."""
        word, parcel = self.field(log, 0, 5), int(self.field(log, 0, 3))
        if word == "none":
            address = self.absolute(log, self.number(log, 0, 1))
            if address is None:
                return None
            word = self.word(log, f"{address:o}")
        return self.listed(PASS * parcel + word[5 * parcel :], parcel)

    @lru_cache(maxsize=None)
    def listed(self, word: str, parcel: int) -> str:
        """The text of the instruction at a parcel of a word, before which all parcels are passes."""
        ran = self.program.run(["list"], f"core 32\nword {word}\nstart 0\nend\n".encode())
        items = ran.printed.decode("latin-1").split("\n", maxsplit=1)[0][28:].split("; ")
        if len(items) <= parcel:
            raise Fault(self.program.path, f"list of the word {word} ends with status {ran.status}")
        return items[parcel]


class Reservation:
    """An issued instruction: its unit and text, the logs up to it without and with it, and its part in memory. Its
    address is the absolute one, or none where it makes no reference in range."""

    def __init__(self, unit: str, text: str, replays: Replays, before: str, after: str) -> None:
        loaded = LOADED.match(text)
        self.unit, self.text, self.before, self.after = unit, text, before, after
        self.channel = int(loaded[1]) if loaded else 0
        self.address: int | None = None
        self.refers = self.channel > 0 or stores(text)
        if self.refers:
            is_link = text.startswith(LINK)
            # A load or a store has the address that it sets.
            address = int(text[3:], 8) if is_link else replays.number(after, 3, int(text[2]) + 1)
            self.address = replays.absolute(after, address)


@dataclass
class State:
    """What the parts of the machine have: the number of a reservation for each unit, place, channel, busy bank and
    reserved register that has one. A machine is booted stopped.

    A load has its channel from its store event on; in `loaded` are those whose word is there. In `fault` is the
    reservation that set the fault flag, and in `asked` the package of an exchange that is asked for."""

    units: dict[str, int] = field(default_factory=dict)
    phases: dict[int, str] = field(default_factory=dict)
    places: dict[int, int] = field(default_factory=dict)
    channels: dict[int, int] = field(default_factory=dict)
    loaded: set[int] = field(default_factory=set)
    banks: dict[int, int] = field(default_factory=dict)
    registers: dict[str, int] = field(default_factory=dict)
    asked: str = ""
    fault: int = 0
    halt: str = STOPPED

    @property
    def pending(self) -> list[int]:
        """The reservations that have an effect still to come, for E18, oldest first."""
        return sorted({*self.units.values(), *self.places.values(), *self.channels.values()})

    @property
    def free_place(self) -> int | None:
        """The lowest place of the hopper that is empty, or none, for E11."""
        return next((place for place in range(PLACES) if place not in self.places), None)

    def about(self, kind: str, field_: str) -> int:
        """The reservation that an event is about, or 0."""
        parts = {"accept": self.places, "return": self.channels}
        return parts[kind].get(int(field_), 0) if kind in parts else self.units.get(field_, 0)

    def change(self, kind: str, fields: Sequence[str], reading: "Reading") -> None:
        """An event of the machine itself: a request, an exchange, an issue without a unit, a bank that is freed."""
        if kind == "ask":
            self.asked = plain(fields[0])
        elif kind == "exchange":
            self.asked, self.fault, self.halt = "", 0, RUNNING
        elif kind == "issue":
            self.halt = reading.replays.halt(reading.log.text)
        elif kind == "bank":
            del self.banks[int(fields[0])]

    def move(self, row: int, kind: str, reading: "Reading") -> None:
        """An event of a reservation."""
        it = reading.rows[row]
        if kind in PHASES:
            self.units[it.unit], self.phases[row] = row, PHASES[kind]
        if kind == "issue":
            self.registers.update({register: row for register in results_of(it.text)})
        elif kind == "accept":
            self.accept(row, it)
        elif kind == "return":
            self.channels.pop(it.channel)
            self.loaded.discard(row)
            self.write([f"X{it.channel}"])
        elif kind == "store":
            self.store(row, it)
            self.record_fault(row, it, reading)

    def store(self, row: int, it: Reservation) -> None:
        """A unit stores: what a load brings is still to come."""
        del self.units[it.unit], self.phases[row]
        self.write(results_of(it.text)[: 1 if it.channel else None])
        if it.channel:
            self.channels[it.channel] = row
        place = self.free_place
        if it.address is not None and place is not None:
            self.places[place] = row
        elif it.channel:
            self.loaded.add(row)

    def record_fault(self, row: int, it: Reservation, reading: "Reading") -> None:
        """The store event of a reference out of range sets the fault flag, where exit mode says so."""
        if it.refers and it.address is None and reading.replays.number(it.after, 2, 5) & ADDRESS_MODE:
            self.fault = self.fault or row

    def accept(self, row: int, it: Reservation) -> None:
        """A bank takes the reference of a reservation."""
        self.places = {place: other for place, other in self.places.items() if other != row}
        if it.address is not None:
            self.banks[it.address % BANKS] = row  # E13
        if it.channel:
            self.loaded.add(row)

    def write(self, registers: Iterable[str]) -> None:
        """Results are no longer still to come."""
        for register in registers:
            self.registers.pop(register, None)

    def drain(self, reading: "Reading") -> None:
        """All that is pending is carried out, oldest first: each reference in range makes its bank busy."""
        for row in self.pending:
            it = reading.rows[row]
            if it.address is not None and row not in self.loaded:
                self.banks[it.address % BANKS] = row  # E13
            if row in self.units.values():
                self.record_fault(row, it, reading)
        self.units, self.phases, self.places, self.channels = {}, {}, {}, {}
        self.loaded, self.registers = set(), {}


class Reading:
    """A session as it is read: its reservations, and the log and the state after the events that were read."""

    def __init__(self, program: Program, session: Session) -> None:
        self.session, self.replays = session, Replays(program, session, session.file)
        self.rows, self.log, self.state = [Reservation("", "", self.replays, "", "")], Log(), State()

    def read(self, event: str, answer: str) -> None:
        """Reads an event with its answer."""
        kind, *fields = event.split(" ")
        if kind == "end" or answer.startswith("E"):
            return
        state = copy.deepcopy(self.state)
        if kind == "drain":
            state.drain(self)
        else:
            row = self.logged(kind, fields, answer) or (state.about(kind, fields[0]) if fields else 0)
            if row:
                state.move(row, kind, self)
            else:
                state.change(kind, fields, self)
        self.state = state

    def logged(self, kind: str, fields: Sequence[str], answer: str) -> int:
        """Logs an event, if it is logged; the reservation that it makes, or none."""
        before = self.log.text
        if kind == "exchange":
            self.log.add(f"E{self.state.asked}")
        elif kind in ("ppread", "ppwrite"):
            self.log.add(f"R{plain(fields[0])}" if kind == "ppread" else "W" + "=".join(map(plain, fields)))
        elif kind == "issue":
            self.log.add_instruction()
            if answer != "ok":
                text = self.replays.instruction(before) or ""
                self.rows.append(Reservation(answer.split(" ")[1], text, self.replays, before, self.log.text))
                return len(self.rows) - 1
        return 0


def readings_of(program: Program, session: Session, answers: Iterable[str]) -> Iterator[Reading]:
    """A reading of a session before its first event, and after each one."""
    reading = Reading(program, session)
    yield reading
    for event, answer in zip(session.events, answers):
        reading.read(event, answer)
        yield reading

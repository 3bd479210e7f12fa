"""What the parts of a machine have at a moment, as the library prints it."""

from dataclasses import dataclass
from functools import cached_property
from typing import Any, Iterable, Mapping, TypeVar

RUNNING = "running"
# The places of the hopper, and the load channels.
PLACES, CHANNELS = range(4), range(1, 6)
# What a reservation does next in its unit, by its phase.
NEXT = {"issued": "read", "read": "finish", "finished": "store"}
OUT_OF_RANGE = "?fetch"
Key = TypeVar("Key", int, str)


@dataclass(frozen=True)
class Refusal:
    """The answer to an event that is refused, and the reservations that hold the event back."""

    answer: str
    rows: tuple[int, ...] = ()

    @property
    def code(self) -> str:
        """Its number, as `E9`."""
        return self.answer.split(" ")[0]

    @property
    def named(self) -> str:
        """The last word of the answer: what the refusal names, if it names something."""
        return self.answer.split(" ")[-1]


@dataclass(frozen=True, eq=False)
class State:
    """The parts of a machine. `printed` has what the library prints of each, `now` its registers, and `shown` the
    shown words by their addresses.

    The library doesn't tell the reservations to which the busy banks are due, in `banks`, and the fault flag, in
    `fault`, since they may be carried out."""

    printed: dict[str, bytes]
    now: Any
    shown: dict[int, int]
    halt: str
    banks: dict[int, int]
    fault: int

    def fields(self, part: str) -> list[list[str]]:
        """The lines of a part, each as its fields."""
        return [line.split(" ") for line in self.printed[part].decode("ascii").splitlines()]

    @cached_property
    def units(self) -> dict[str, int]:
        """The reservation of each unit that has one, oldest first."""
        return in_order((unit, int(row)) for unit, row, *_ in self.fields("units"))

    @cached_property
    def phases(self) -> dict[int, str]:
        """How far each reservation of a unit is."""
        return {int(row): phase for _, row, phase, *_ in self.fields("units")}

    @cached_property
    def texts(self) -> dict[int, str]:
        """The instruction of each reservation of a unit."""
        return {int(row): " ".join(text) for _, row, _, *text in self.fields("units")}

    @cached_property
    def places(self) -> dict[int, int]:
        """The reservation whose reference waits in each place of the hopper, oldest first."""
        return in_order((int(place), int(row)) for place, row, *_ in self.fields("hopper"))

    @cached_property
    def addresses(self) -> dict[int, int]:
        """The absolute address of each reference in the hopper."""
        return {int(row): int(address, 8) for _, row, address, *_ in self.fields("hopper")}

    @cached_property
    def loaded(self) -> dict[int, str]:
        """The loads whose words wait in their channels, with the digits of these words."""
        return {int(row): word for _, row, word, *_ in self.fields("channels")}

    @cached_property
    def channels(self) -> dict[int, int]:
        """The load of each channel that has one, oldest first. A load that waits in the hopper has the channel of the
        register that it is still to write."""
        arrived = [(int(channel), int(row)) for channel, row, *_ in self.fields("channels")]
        loads = [int(row) for _, row, _, kind, *_ in self.fields("hopper") if kind == "load"]
        return in_order([*arrived, *((int(self.results(row)[0][1]), row) for row in loads)])

    @cached_property
    def registers(self) -> dict[str, int]:
        """The reservation that is to write each reserved register."""
        return {register: int(row) for register, row, *_ in sorted(self.fields("reserved_registers"))}

    def results(self, row: int) -> list[str]:
        """The registers that a reservation is still to write."""
        return [register for register, other in self.registers.items() if other == row]

    @cached_property
    def unread(self) -> list[tuple[int, str, int]]:
        """The operands that reservations are still to read, but for B0: the reservation, the register, and the
        reservation that is to write it before, or 0."""
        found = ((int(row), register, int([*producer, "0"][0]))
                 for row, register, *producer in self.fields("unread_operands"))
        return [it for it in dict.fromkeys(found) if it[1] != "B0"]

    def operands(self, row: int) -> list[str]:
        """The registers that a reservation is still to read."""
        return [register for other, register, _ in self.unread if other == row]

    def awaited(self, row: int) -> list[tuple[str, int]]:
        """The operands for which a reservation waits, each with the reservation that is to write it."""
        return [(register, producer) for other, register, producer in self.unread if other == row and producer]

    @cached_property
    def asked(self) -> str:
        """The package of the exchange that is asked for, or nothing."""
        return self.printed["request"].decode("ascii").strip()

    @cached_property
    def position(self) -> tuple[str, str]:
        """The address and the parcel at which the next instruction is."""
        address, parcel, *_ = self.fields("next_instruction")[0]
        return address, parcel

    @cached_property
    def next(self) -> str:
        """The text of the next instruction, or why there is none."""
        return " ".join(self.fields("next_instruction")[0][2:])

    @property
    def pending(self) -> list[int]:
        """The reservations that have an effect still to come, oldest first."""
        return sorted({*self.units.values(), *self.places.values(), *self.channels.values()})

    def about(self, event: str) -> int:
        """The reservation that an event is about, or 0."""
        kind, *fields = event.split(" ")
        if kind in NEXT.values():
            return self.units.get(fields[0], 0)
        parts = {"accept": self.places, "return": self.channels}
        return parts[kind].get(int(fields[0]), 0) if kind in parts else 0

    def next_of(self, row: int) -> str:
        """The event that a pending reservation makes next."""
        if row in self.phases:
            return f"{NEXT[self.phases[row]]} {part_of(self.units, row)}"
        place = part_of(self.places, row)
        return f"return {part_of(self.channels, row)}" if place is None else f"accept {place}"

    def register(self, name: str) -> str:
        """The value of a register, in octal digits without noughts in front."""
        return f"{getattr(self.now, name[0].lower())[int(name[1])]:o}"

    @cached_property
    def values(self) -> dict[str, str]:
        """The digits of the registers by their names, and of the shown words by their addresses in six digits."""
        found = {f"{kind}{n}": f"{value:0{digits}o}" for kind, digits in (("A", 6), ("B", 6), ("X", 20))
                 for n, value in enumerate(getattr(self.now, kind.lower()))}
        return found | {f"{address:06o}": f"{word:020o}" for address, word in self.shown.items()}


def in_order(pairs: Iterable[tuple[Key, int]]) -> dict[Key, int]:
    """Parts with their reservations, oldest first."""
    return dict(sorted(pairs, key=lambda pair: pair[1]))


def part_of(parts: Mapping[Key, int], row: int) -> Key | None:
    """The part that a reservation has, or none."""
    return next((part for part, other in parts.items() if other == row), None)

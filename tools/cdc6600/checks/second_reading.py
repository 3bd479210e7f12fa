"""A second reading of a session, which asks the machine itself and shares nothing with tools/cdc6600/drawing.

After each event the session is run anew up to there, with events behind it that try every part: an event that is
answered otherwise than by `E15 nothing` found its part at work. Which reservation a part has follows from what changed
with the event that was made. The registers that an instruction writes are read off the digits of its parcel, which
`replay` shows.
"""

from dataclasses import dataclass, field
from typing import Iterable

from cdc6600.limits import BANKS
from cdc6600.shared.program import Program

UNITS = (
    "branch", "boolean", "shift", "add", "longadd", "multiply1", "multiply2", "divide", "increment1", "increment2"
)
PLACES, CHANNELS = range(4), range(1, 6)
# By what a unit can do next.
PHASES = {"read": "issued", "finish": "read", "store": "finished"}
TRIED = (
    [f"return {channel}" for channel in CHANNELS] + [f"bank {bank}" for bank in range(BANKS)]
    + [f"accept {place}" for place in PLACES] + [f"{event} {unit}" for unit in UNITS for event in PHASES]
)
NOTHING = "E15 nothing"


def written_by(parcel: str) -> list[str]:
    """The registers that the instruction with this first parcel writes, five octal digits; the last one of a load is
    written when it returns."""
    code, number = parcel[:2], parcel[2]
    if code[0] == "5":
        return [f"A{number}"] + [f"X{number}"] * (number in "12345")
    if code[0] == "6":
        return [] if number == "0" else [f"B{number}"]
    is_written = code[0] in "17" or code in ("20", "21", "22", "23", "36", "37", "43", "47")
    return [f"X{number}"] if is_written else []


@dataclass
class Parts:
    """What the parts have, by the number of a reservation, after an event."""

    units: dict[str, tuple[int, str]] = field(default_factory=dict)
    places: dict[int, int] = field(default_factory=dict)
    channels: dict[int, tuple[int, bool]] = field(default_factory=dict)
    banks: dict[int, int] = field(default_factory=dict)
    registers: dict[str, int] = field(default_factory=dict)
    asked: str = ""


class SecondReading:
    """The parts of a machine after each event of a session."""

    def __init__(self, program: Program, deck: str) -> None:
        self.program, self.deck, self.events = program, deck, list[str]()
        self.parts, self.log, self.writes, self.at_work = Parts(), "none", dict[int, list[str]](), set[str]()

    def read(self, event: str, answer: str) -> Parts:
        """Reads an event more, with its answer; the parts after it."""
        kind, *fields = event.split(" ")
        before = self.log
        self.events.append(event)
        if kind in ("end", "drain"):
            return Parts(asked=self.parts.asked) if kind == "drain" else self.parts
        at_work, was_at_work = self.probe(), self.at_work
        self.at_work = at_work
        if answer.startswith("ok"):
            self.change(kind, fields, answer.split(" ")[1:], before, at_work - was_at_work)
        self.parts.units = {unit: (row, self.phase(unit)) for unit, (row, _) in self.parts.units.items()}
        self.parts.channels = {
            channel: (row, f"return {channel}" in at_work) for channel, (row, _) in self.parts.channels.items()
        }
        return self.parts

    def probe(self) -> set[str]:
        """The events that find their part at work. It reads the log, too."""
        text = self.deck + "".join(f"{event}\n" for event in [*self.events, *TRIED, "end"])
        printed = self.program.run(["events"], text.encode("latin-1")).printed.decode("latin-1").splitlines()
        self.log = printed[-1].removeprefix("LOG ")
        answers = printed[len(self.events) : len(self.events) + len(TRIED)]
        return {event for event, answer in zip(TRIED, answers) if answer != NOTHING}

    def phase(self, unit: str) -> str:
        """How far a unit is: by the first event that it can make."""
        return next((phase for event, phase in PHASES.items() if f"{event} {unit}" in self.at_work), "free")

    def change(self, kind: str, fields: list[str], answered: list[str], log: str, found: Iterable[str]) -> None:
        """An event that was made, with the log before it and what was found at work that wasn't before."""
        parts = self.parts
        if kind == "issue" and answered:
            unit, row = answered[0], int(answered[1])
            parts.units[unit], self.writes[row] = (row, ""), written_by(self.parcel(log))
            parts.registers.update({register: row for register in self.writes[row]})
        elif kind == "store":
            self.stored(fields[0], found)
        elif kind == "accept":
            row = parts.places.pop(int(fields[0]))
            parts.banks.update({int(it[5:]): row for it in found if it.startswith("bank ")})
        elif kind == "return":
            del parts.channels[int(fields[0])], parts.registers[f"X{int(fields[0])}"]
        elif kind == "bank":
            del parts.banks[int(fields[0])]
        elif kind in ("ask", "exchange"):
            parts.asked = f"{int(fields[0], 8):o}" if fields else ""

    def stored(self, unit: str, found: Iterable[str]) -> None:
        """A unit has stored. An instruction that writes an A register and an X register is a load."""
        row, _ = self.parts.units.pop(unit)
        for register in self.writes[row][:1]:
            del self.parts.registers[register]
        for register in self.writes[row][1:]:
            self.parts.channels[int(register[1])] = (row, False)
        self.parts.places.update({int(it[7:]): row for it in found if it.startswith("accept ")})

    def parcel(self, log: str) -> str:
        """The parcel that is issued next after a log."""
        size = int(self.deck.split("\n", maxsplit=1)[0].split(" ")[1])
        lines = [line for line in self.deck.split("\n") if not line.startswith("show ")]
        text = "\n".join(lines[: lines.index("end")] + [f"show 0 {size - 1:o}", "end", ""])
        dump = self.program.replay(log, text.encode("latin-1")).printed.decode("latin-1").splitlines()
        _, place, _, parcel, _, word = dump[0].split(" ")
        if word == "none":
            address = int(place, 8) + int(dump[2].split(" ")[1], 8)
            word = next(line for line in dump if line.startswith(f"M {address:06o}"))[9:]
        return word[5 * int(parcel) :][:5]

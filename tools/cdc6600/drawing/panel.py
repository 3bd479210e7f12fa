"""The panel of a machine: what is shown of a state, alike on a page and in a terminal.

A row of the panel is a few texts. There is one for each unit, place, channel, busy bank and reserved register, and some
are for the machine itself.
"""

from typing import Mapping

from cdc6600.asking.states import CHANNELS, OUT_OF_RANGE, PLACES, RUNNING, part_of
from cdc6600.limits import BANKS

from .retracing import View
from .sentences import said
from .units import NAMES


class Panel:
    """The rows of the panel for a view of a session."""

    def __init__(self, view: View) -> None:
        self.state, self.rows, self.log = view.state, view.rows, view.log

    def parts(self) -> dict[str, Mapping[str, str | list[str]]]:
        """All rows by their parts: what has nothing is left out, but for the machine itself."""
        return {
            "machine": self.machine(), "units": self.units(), "places": self.places(), "channels": self.channels(),
            "banks": self.banks(), "registers": self.registers(),
        }

    def labelled(self, row: int, *more: str) -> list[str]:
        """A reservation's number and instruction, and more about it."""
        return [str(row), self.rows[row].text, *more]

    def machine(self) -> dict[str, str]:
        """How the machine itself is: whether it runs, what is issued next, whether an exchange is asked for."""
        asked = said("panel exchange", package=self.state.asked)
        return {"Machine": self.condition(), "Next": self.next(), "Exchange": asked, "Log": self.log}

    def condition(self) -> str:
        halt, fault = self.state.halt, self.state.fault
        return said("panel state", halt="" if halt == RUNNING else halt, fault=str(fault or ""))

    def next(self) -> str:
        """The next instruction, where that can be said."""
        state, (address, parcel) = self.state, self.state.position
        if state.halt != RUNNING:
            return said("panel none")
        if "branch" in state.units:
            return said("panel branch")
        text = "" if state.next == OUT_OF_RANGE else state.next
        return said("panel next", text=text, address=address, parcel=parcel if state.now.has_held else "")

    def units(self) -> dict[str, list[str]]:
        """The units that are reserved, each with how far its reservation is."""
        return {unit: self.labelled(row, self.phase(row)) for unit, row in self.state.units.items()}

    def phase(self, row: int) -> str:
        """How far a reservation is, and which operands it waits for."""
        phase = self.state.phases[row]
        waits = [said("awaits", register=register, producer=str(producer))
                 for register, producer in self.state.awaited(row)]
        return said("panel phase", phase=phase, awaited=waits)

    def places(self) -> dict[str, list[str]]:
        """The places of the hopper that are taken, each with the word that is referred to."""
        found = {}
        for place, row in sorted(self.state.places.items()):
            address = self.state.addresses[row]
            word = said("panel word", address=f"{address:o}", bank=str(address % BANKS))  # E13
            found[str(place)] = self.labelled(row, word)
        return found

    def channels(self) -> dict[str, list[str]]:
        """The load channels that a load has."""
        found = {}
        for channel, row in sorted(self.state.channels.items()):
            place = "" if row in self.state.loaded else str(part_of(self.state.places, row))
            found[str(channel)] = self.labelled(row, said("panel load", place=place))
        return found

    def banks(self) -> dict[str, list[str]]:
        """The busy banks, each with the reservation whose reference it took."""
        return {str(bank): self.labelled(row) for bank, row in sorted(self.state.banks.items())}

    def registers(self) -> dict[str, list[str]]:
        """The reserved registers, each with the reservation that is to write it, and that one's unit."""
        found = {}
        for register, row in sorted(self.state.registers.items()):
            it = self.rows[row]
            found[register] = self.labelled(row, NAMES[it.unit])
        return found


# The rows that a panel has room for, with their labels.
ROOM = {
    "units": NAMES,
    "places": {str(place): f"Place {place}" for place in PLACES},
    "channels": {str(channel): f"Channel {channel}" for channel in CHANNELS},
    "banks": {str(bank): str(bank) for bank in range(BANKS)},
}

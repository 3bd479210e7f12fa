"""The machine in lines of a terminal."""

import textwrap
from typing import Mapping, Sequence

from cdc6600.asking.states import CHANNELS, PLACES, Key, State
from cdc6600.drawing.following import Reservation
from cdc6600.drawing.panel import Panel
from cdc6600.drawing.retracing import View
from cdc6600.drawing.units import NAMES, UNITS
from cdc6600.limits import BANKS

from .operation import Offer

WIDTH = 80
# The units stand at the left, the hopper and the channels beside them.
LEFT = 39


def board(view: View) -> list[str]:
    """The lines that show a state, of at most 80 characters: ten with the parts side by side, and those below."""
    state, rows = view.state, view.rows
    left = [unit_line(state, rows, unit) for unit in UNITS]
    right = [place_line(state, rows, place) for place in PLACES]
    right += [channel_line(state, rows, channel) for channel in CHANNELS]
    right += [""] * (len(left) - len(right))
    beside = [f"{one:<{LEFT}}{other}".rstrip(" ")[:WIDTH] for one, other in zip(left, right)]
    return [*beside, *about_machine(view)]


def unit_line(state: State, rows: Sequence[Reservation], unit: str) -> str:
    row = state.units.get(unit)
    return line_of(f"{NAMES[unit]:<12}", rows, row, state.phases[row] if row else "")


def place_line(state: State, rows: Sequence[Reservation], place: int) -> str:
    row = state.places.get(place)
    address = state.addresses.get(row or 0, 0)
    return line_of(f"Place {place}  ", rows, row, f"{address:o} bank {address % BANKS}")  # E13


def channel_line(state: State, rows: Sequence[Reservation], channel: int) -> str:
    row = state.channels.get(channel)
    return line_of(f"Channel {channel}", rows, row, "to return" if row in state.loaded else "in the hopper")


def line_of(label: str, rows: Sequence[Reservation], row: int | None, more: str) -> str:
    """The line of a part with a reservation, or with none."""
    return f"{label}{row:>3} {rows[row].text:<13} {more}" if row else f"{label}  -"


def about_machine(view: View) -> list[str]:
    """The lines of the machine itself, of its busy banks and of its reserved registers, by reservation."""
    parts, state = Panel(view).machine(), view.state
    return [
        f"Machine: {parts['Machine']}. Exchange: {parts['Exchange']}."[:WIDTH], f"Next: {parts['Next']}"[:WIDTH],
        *wrapped(f"Busy banks: {by_reservation(state.banks)}"),
        *wrapped(f"Reserved registers: {by_reservation(state.registers)}"),
    ]


def by_reservation(parts: Mapping[Key, int]) -> str:
    """Some parts, each with the number of the reservation that has it."""
    return ", ".join(f"{part} by {row}" for part, row in sorted(parts.items())) or "none"


def wrapped(text: str) -> list[str]:
    """The lines of a text that is said, with room beside them for a cursor."""
    return textwrap.wrap(text, WIDTH - 1, break_on_hyphens=False)


def offered(offer: Offer) -> str:
    """An event that may be tried, in a line."""
    held = f"{offer.refusal.answer}  " if offer.refusal else ""
    return f"{offer.event:<18} {held}{offer.about}"[: WIDTH - 4].rstrip(" ")

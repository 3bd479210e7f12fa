"""Says in words why an event is refused, by the sentences of words.json."""

from cdc6600.asking.states import CHANNELS, NEXT, PLACES, Refusal, part_of
from cdc6600.limits import BANKS

from .following import plain
from .retracing import View
from .sentences import SENTENCES, reservation, reservations, said
from .units import NAMES


def why(view: View, core: int, event: str, refusal: Refusal) -> str:
    """Why an event is refused in the state of a view, with a memory of so many words. The refusal may name no
    reservations."""
    others = {"E1": halted, "E7": unit_busy, "E15": nothing}
    if refusal.code in others:
        return others[refusal.code](view, event, refusal)
    return said(refusal.code, by=reservations(view.rows, refusal.rows), register=refusal.named, bank=refusal.named,
                package=view.state.asked, core=str(core), next=view.state.next, parcel=view.state.position[1],
                **of_part(view, event), **parted(view, refusal))


def of_part(view: View, event: str) -> dict[str, str]:
    """The reservation that an event is about, and the word that it refers to; for a peripheral access the word."""
    kind, field = [*event.split(" "), ""][:2]
    if kind in ("ppread", "ppwrite"):
        return {"address": plain(field)}
    parts = {"accept": view.state.places, "return": view.state.channels}
    row = parts[kind].get(int(field)) if kind in parts else view.state.units.get(field)
    if not row:
        return {}
    address = view.state.addresses.get(row)
    return {"it": reservation(view.rows, row), "address": "" if address is None else f"{address:o}"}


def parted(view: View, refusal: Refusal) -> dict[str, list[str]]:
    """The reservations that hold an event back: those to come to their store events, and those in the hopper."""
    coming = [row for row in refusal.rows if row in view.state.phases]
    entered = [row for row in refusal.rows if row not in coming]
    return {"coming": reservations(view.rows, coming), "entered": reservations(view.rows, entered)}


def halted(_view: View, _event: str, refusal: Refusal) -> str:
    """E1."""
    key = f"E1 {refusal.named}"
    return said(key if key in SENTENCES else "E1")


def unit_busy(view: View, _event: str, refusal: Refusal) -> str:
    """E7."""
    units = [unit for unit, row in sorted(view.state.units.items()) if row in refusal.rows]
    has = [said("unit has", unit=NAMES[unit], it=reservation(view.rows, view.state.units[unit])) for unit in units]
    if len(has) > 1:
        either = " or ".join(NAMES[unit] for unit in units)
    else:
        by = reservations(view.rows, refusal.rows)
        either = said("E7 one", unit=NAMES[refusal.named], by=by) if has else said("E7 none")
    return said("E7", next=view.state.next, either=len(has) > 1, units=either, has=has)


def nothing(view: View, event: str, _refusal: Refusal) -> str:
    """E15."""
    kind, *fields = event.split(" ")
    if kind in NEXT.values():
        return nothing_in_unit(view, fields[0])
    if kind == "exchange":
        return said("E15 exchange")
    number = int(fields[0])
    row = view.state.channels.get(number) if kind == "return" else None
    if row:
        place = part_of(view.state.places, row)
        return said("E15 load", it=reservation(view.rows, row), place="" if place is None else str(place))
    there = {"accept": PLACES, "bank": range(BANKS), "return": CHANNELS}[kind]
    return said(f"E15 {kind}", number=str(number) if number in there else "", none=str(number))


def nothing_in_unit(view: View, unit: str) -> str:
    """Why a unit has nothing to read, to finish or to store."""
    row = view.state.units.get(unit)
    if not row:
        return said("E15 unit", unit=NAMES[unit])
    return said(f"E15 {view.state.phases[row]}", unit=NAMES[unit], it=reservation(view.rows, row))

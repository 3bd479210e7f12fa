"""The table of a session's reservations: when each one made its events, and what held it. It is written as text, as
JSON, and on a page (drawing/tables.py)."""

import json
from dataclasses import dataclass
from typing import Iterable, Iterator

from cdc6600.drawing.following import Following

from .waits import Account, Hold, holds_by_events

# The kinds of a reservation's events, by the names of their columns. The last two are those of a reference.
EVENTS = {"issue": "issue", "read": "read", "finish": "finish", "store": "store", "accepted": "accept",
          "returned": "return"}
HEADS = ("no.", "instruction", "unit", *EVENTS, "held by")
BY_EVENT = "A number is that of the event in the schedule. The last column has the last refusal."
BY_CYCLE = "A number is a minor cycle by the file of times. The last column has the longest wait."


@dataclass(frozen=True)
class Row:
    """A reservation: its number, instruction and unit, when it made the event of each column, or none where it didn't,
    and what held it, or none."""

    number: int
    instruction: str
    unit: str
    moments: dict[str, int | None]
    hold: Hold | None

    @property
    def cells(self) -> list[str]:
        """The texts of its columns."""
        moments = ("" if it is None else str(it) for it in self.moments.values())
        return [str(self.number), self.instruction, self.unit, *moments, self.hold.text if self.hold else ""]

    @property
    def fields(self) -> dict[str, object]:
        """What JSON has of it."""
        return {"reservation": self.number, "instruction": self.instruction, "unit": self.unit, **self.moments,
                "held": held(self.hold) if self.hold else None}


def held(hold: Hold) -> dict[str, object]:
    """What JSON has of a hold."""
    refusal = hold.refusal
    return {"event": hold.event, "rule": refusal.code if refusal else None, "reason": hold.reason,
            "by": list(refusal.rows) if refusal else [], "cycles": hold.cycles or None}


def rows_of(following: Following, account: Account | None = None) -> Iterator[Row]:
    """The rows of a session that was followed to its end: by the minor cycles of an account, else by its events. Of its
    holds each one has the longest, or the last of these. By events all are equally long."""
    moments = account.cycles if account else range(1, following.columns + 1)
    holds = account.holds if account else holds_by_events(following)
    made: list[dict[str, int]] = [{} for _ in following.rows]
    for row, n in following.marks:
        if not following.is_refused(n):
            made[row][following.session.events[n].split(" ")[0]] = moments[n]
    for number, it in enumerate(following.rows[1:], 1):
        hold = max(reversed(holds[number].values()), key=lambda hold: hold.cycles, default=None)
        yield Row(number, it.text, it.unit, {name: made[number].get(kind) for name, kind in EVENTS.items()}, hold)


def as_text(found: Iterable[Row], is_timed: bool) -> str:
    """The table as text, its columns aligned: texts at the left, numbers at the right."""
    lines = [HEADS, *(row.cells for row in found)]
    wide = [max(len(line[at]) for line in lines) for at in range(len(HEADS))]
    said = ["  ".join(cell.ljust(size) if head in ("unit", "instruction", HEADS[-1]) else cell.rjust(size)
                      for cell, size, head in zip(line, wide, HEADS)).rstrip() for line in lines]
    return "\n".join([*said, "", BY_CYCLE if is_timed else BY_EVENT, ""])


def as_json(found: Iterable[Row]) -> str:
    """The table as JSON, a reservation in each line."""
    return "[" + ",".join(f"\n{json.dumps(row.fields)}" for row in found) + "\n]\n"

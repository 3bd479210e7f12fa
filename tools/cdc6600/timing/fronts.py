"""The moments at which orders of events come to a state.

Nothing happens earlier if something before it happens later. So of two moments in a state one may be dropped if it is
nowhere earlier than the other, where the shortest order is looked for; for the longest, if it is nowhere later.
"""

from dataclasses import dataclass


@dataclass(eq=False)
class Moment:
    """The cycle of the last event of an order, the cycles at which parts are ready, and the moment and the event that
    led to it. At `end` the last event but for freed banks has happened, and the last issue is over."""

    now: int
    ready: dict[int | str, int]
    end: int = 0
    before: "Moment | None" = None
    event: str = ""

    def __post_init__(self) -> None:
        # A part that has been ready for a while is as one that is ready now.
        self.ready = {key: max(cycle, self.now) for key, cycle in self.ready.items()}

    @property
    def events(self) -> list[str]:
        found, moment = list[str](), self
        while moment.before:
            found.append(moment.event)
            moment = moment.before
        return found[::-1]

    def is_before(self, other: "Moment") -> bool:
        """Whether nothing of it is later than in another moment of the same state."""
        is_before = self.now <= other.now and self.end <= other.end
        return is_before and all(cycle <= other.ready[key] for key, cycle in self.ready.items())


class Front:
    """The moments of a state that may still lead to the extreme one."""

    def __init__(self, is_latest: bool) -> None:
        self.is_latest, self.moments = is_latest, list[Moment]()

    def beats(self, one: Moment, other: Moment) -> bool:
        """Whether one moment makes the other one needless."""
        return other.is_before(one) if self.is_latest else one.is_before(other)

    def add(self, moment: Moment) -> None:
        """Adds a moment, unless it is needless, and drops those that it makes needless."""
        if not any(self.beats(it, moment) for it in self.moments):
            self.moments = [it for it in self.moments if not self.beats(moment, it)] + [moment]

"""Goes through a session that is followed once more, with a machine of its own, for what its parts have on the way."""

from dataclasses import dataclass

from cdc6600.asking.states import Refusal, State

from .following import Following, Reservation


@dataclass(frozen=True)
class View:
    """What is shown of a machine: a state, the session's reservations by their numbers, and the log up to there."""

    state: State
    rows: list[Reservation]
    log: str


class Retracing:
    """The states of a session: the one before its first event, and the one after each event up to which it has gone.
    `refusals` has for each refused event what the machine would refuse it for, or none if it would make it."""

    def __init__(self, following: Following) -> None:
        self.following, self.machine = following, following.session.machine()
        self.states, self.refusals = [self.machine.state], dict[int, Refusal | None]()

    def go_on(self) -> None:
        """Goes on by an event."""
        n = len(self.states) - 1
        event = self.following.session.events[n]
        if self.following.is_refused(n):
            self.refusals[n] = self.machine.judge(event)
        elif event == "drain":
            self.machine.drain()
        elif event != "end":
            self.machine.make(event)
        self.states.append(self.machine.state)

    def go_to(self, n: int) -> None:
        """Goes on until so many events are over."""
        while len(self.states) <= n:
            self.go_on()

    def log(self, n: int) -> str:
        return self.following.logs[n - 1] if n else "none"

    def view(self, n: int) -> View:
        """What is shown after n events."""
        return View(self.states[n], self.following.rows, self.log(n))


def retraced(following: Following) -> Retracing:
    """The states of a session that was followed, up to its end."""
    found = Retracing(following)
    found.go_to(following.columns)
    return found

"""A machine of the proved library that is kept: it makes events, judges them, and says what its parts have.

No rule of the machine is here. What the library doesn't tell is noted: whose reference made a bank busy, and whose
reference set the fault flag.
"""

import weakref
from typing import Any, Iterable, Sequence

from .library import NoLibrary, declarations, library
from .states import RUNNING, Refusal, State

OUT_OF_MEMORY, NO_MEMORY = 6, "E21 "
HALTED = "E1 halted "
# A reference that hasn't entered the hopper holds back an access to any word.
ANY_ACCESS = "ppread 0"


def is_refusal(answer: str) -> bool:
    return answer.startswith("E")


class Machine:
    """A machine that is kept. `events` are those that it has made, and `state` is what its parts have now.

    `shown` are the words that each state has: pairs of an address and a number of words."""

    def __init__(self, deck: bytes, shown: Sequence[tuple[int, int]] = ()) -> None:
        """Boots it with a deck that the program accepts."""
        self.deck, self.shown = deck, shown
        self.kept = declarations().Machine(library())
        weakref.finalize(self, self.kept.free)
        self.restart()

    def restart(self, events: Iterable[str] = (), state: State | None = None) -> None:
        """Boots it, and makes events that lead to a state."""
        self.check(*self.kept.boot(self.deck))
        for event in events:
            # They were made before, and so they are refused for want of memory alone.
            if self.kept.event(event.encode("ascii"))[0][:1] == b"E":
                raise MemoryError
        self.events, self.state = list(events), state or self.ask(0, None)

    @staticmethod
    def check(told: bytes, status: int) -> None:
        """Raises MemoryError where a call had no memory, and NoLibrary where it failed otherwise."""
        if status == OUT_OF_MEMORY:
            raise MemoryError
        if status:
            raise NoLibrary(f"the library fails with status {status}: {told.decode().strip()}")

    def printed(self, came: tuple[bytes, bytes, int]) -> str:
        text, told, status = came
        if status:
            self.check(told, status)
        return text.decode("ascii")

    def ask(self, row: int, before: State | None) -> State:
        """The state now. Banks that weren't busy before, and a fault flag that wasn't set, are due to a reservation."""
        printed = {part: self.kept.contents(part)[0] for part in self.kept.parts}
        now, busy = self.kept.registers()[0], [int(bank) for bank in printed["banks"].split()]
        banks, fault = (before.banks, before.fault) if before else ({}, 0)
        banks = {bank: other for bank, other in banks.items() if bank in busy}
        banks |= {bank: row for bank in busy if bank not in banks}
        return State(printed, now, self.words(), self.halt(now), banks, (fault or row) if now.fault else 0)

    def halt(self, now: Any) -> str:
        """How the machine is halted, by its registers and the refusal of an issue."""
        return self.line(self.kept.judge(b"issue")).removeprefix(HALTED) if now.halt else RUNNING

    def words(self) -> dict[int, int]:
        """The shown words now, by their addresses."""
        found = ((first, self.kept.words(first, count)[0]) for first, count in self.shown)
        return {first + n: word for first, words in found for n, word in enumerate(words)}

    def line(self, came: tuple[bytes, bytes, int]) -> str:
        """The first line that a call printed."""
        return self.printed(came).partition("\n")[0]

    def judge(self, event: str) -> Refusal | None:
        """The refusal of an event now, or none if it would be made."""
        answer, *rows = self.printed(self.kept.judge(event.encode("ascii"))).splitlines()
        if not is_refusal(answer):
            return None
        refusal = Refusal(answer, tuple(map(int, rows)))
        if refusal.code == "E2":
            return Refusal(answer, (self.state.fault,))
        return Refusal(answer, (self.state.banks[int(refusal.named)],)) if refusal.code == "E13" else refusal

    def make(self, event: str) -> str:
        """Makes an event, unless it is refused; its answer.

        Raises MemoryError where it is refused for want of memory."""
        row, answer = self.state.about(event), self.line(self.kept.event(event.encode("ascii")))
        if answer.startswith(NO_MEMORY):
            raise MemoryError
        if not is_refusal(answer):
            self.events.append(event)
            # An issue to a unit is answered with the unit and the number of the reservation.
            number = answer.split(" ")[2:]
            self.state = self.ask(int(number[0]) if number else row, self.state)
        return answer

    def refers(self, row: int) -> bool:
        """Whether a reservation of a unit makes a reference at its store event."""
        refusal = self.judge(ANY_ACCESS)
        return refusal is not None and row in refusal.rows

    def drain(self) -> None:
        """Carries out all that is pending, event by event."""
        while not self.kept.is_drained():
            event = self.line(self.kept.next())
            self.events.append(event)
            self.state = self.ask(self.state.about(event), self.state)

    def drained(self) -> State:
        """The state in which all that is pending is carried out."""
        if not self.state.pending:
            return self.state
        other = Machine(self.deck, self.shown)
        other.restart(self.events, self.state)
        other.drain()
        return other.state

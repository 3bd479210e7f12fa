"""Goes through a deck's program one instruction at a time, beside its schedule, to know where a branch leads while the
scheduled machine still computes that."""

from cdc6600.asking.machine import is_refusal
from cdc6600.drawing.following import Session


class Course:
    """A machine that carries out each instruction before the next one. It records a fault as early as any, and then
    issues nothing more: `is_lost` says that the scheduled machine has issued an instruction that this one refuses."""

    def __init__(self, session: Session) -> None:
        self.machine, self.is_lost = session.machine(), False

    def position(self) -> tuple[int, int]:
        """The address and the parcel of the next instruction."""
        registers, _ = self.machine.kept.registers()
        return registers.p, registers.parcel

    def step(self) -> bool:
        """Does the next instruction; whether it leads elsewhere than to the one after it."""
        self.is_lost = self.is_lost or is_refusal(self.machine.line(self.machine.kept.event(b"issue")))
        following = self.position()
        self.machine.kept.drain()
        return self.position() != following

    def exchange(self, package: str) -> None:
        for event in (f"ask {package}", "exchange"):
            self.machine.kept.event(event.encode("ascii"))

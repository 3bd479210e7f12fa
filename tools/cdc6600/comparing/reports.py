"""Says at which step an emulator differs: the instruction with its operands, and what differs."""

from dataclasses import dataclass
from typing import Iterator

from cdc6600.limits import PACKAGE_WORDS
from cdc6600.shared.instructions import instruction, items_of

from .dumps import Dump
from .finding import Comparison, Found

# What the steps are that aren't instructions, by the letters of their entries.
OTHERS = {
    "E": "the exchange with the package at {}",
    "R": "a peripheral processor's read of word {}",
    "W": "a peripheral processor's write to word {}",
}
# The same without their addresses.
OTHER_KINDS = {"E": "an exchange", "R": "a peripheral read", "W": "a peripheral write"}
# How many differences are printed; an emulator that reads a deck wrongly may have more of them than anybody reads.
MOST = 64
# How many are named in one line.
FEW = 6
RUNNING, NO_WORD = "running", "none"
# What is done instead of issuing an instruction.
HALTED, UNFETCHED = "nothing, since the machine is halted", "the fetch of a word out of range"


@dataclass(frozen=True)
class Issue:
    """What a machine issues next, by its dump."""

    dump: Dump

    @property
    def address(self) -> int | None:
        """The address in memory of the word at P, or none where it is out of range."""
        return self.absolute(self.dump.number("P"))

    def absolute(self, address: int) -> int | None:
        """The address in memory of a program's address, or none where that is out of range."""
        at = self.dump.number("RA") + address
        return at if address < self.dump.number("FL") and at < self.dump.size else None

    @property
    def word(self) -> str | None:
        """The word that it is issued from, or none if that would have to be fetched out of range."""
        held = self.dump.state["HELD"]
        if held != NO_WORD:
            return held
        return None if self.address is None else self.dump.word(self.address)

    @property
    def text(self) -> str:
        """The instruction's text as `list` has it, or what is done instead of issuing one."""
        if self.dump.state["HALT"] != RUNNING:
            return HALTED
        return items_of(self.word)[self.dump.number("PARCEL")] if self.word else UNFETCHED

    @property
    def digits(self) -> str:
        """The five digits of its first parcel."""
        parcel = 5 * self.dump.number("PARCEL")
        return (self.word or "")[parcel : parcel + 5]

    @property
    def at(self) -> str:
        """Where it stands."""
        memory = "" if self.address is None else f", memory {self.address:06o}"
        return f"P {self.dump.state['P']} PARCEL {self.dump.state['PARCEL']}{memory}"

    @property
    def operands(self) -> list[tuple[str, str]]:
        """The registers that it reads, each with its value."""
        it = instruction(self.text)
        return [(name, self.dump.state[name]) for name in it.operands] if it else []

    def referred(self, after: Dump) -> tuple[int, bool] | None:
        """The program's address that it refers to, by the dump after it, and whether it stores a word there; none for
        an instruction that makes no reference."""
        it = instruction(self.text)
        if it and it.row.code == "010":
            return it.fields["K"], True
        number = it.fields["i"] if it and it.row.code[0] == "5" else 0
        return (after.number(f"A{number}"), number > 5) if number else None

    def reference(self, after: Dump) -> str:
        """What it does in memory, by the dump after it; nothing for an instruction that makes no reference."""
        referred = self.referred(after)
        if not referred:
            return ""
        address, is_store = referred
        at = self.absolute(address)
        where = f"memory {at:06o}" if at is not None else "which is out of range"
        return f"{'stores' if is_store else 'loads'} word {address:06o}, {where}"


class Report:
    """What was found of an emulator on a deck, in words."""

    def __init__(self, comparison: Comparison, found: Found) -> None:
        self.comparison, self.found = comparison, found
        self.steps, self.step = comparison.steps, found.step
        self.name = comparison.replayed.given.name
        # What is issued next before the step. The machine as it is booted has no step before it.
        self.issue = Issue(comparison.replayed.dump(max(found.step - 1, 0)))

    @property
    def entry(self) -> str:
        return self.steps.entry(self.step)

    @property
    def is_instruction(self) -> bool:
        return self.step > 0 and self.entry.startswith("I")

    @property
    def what(self) -> str:
        """What the step is: the text of an instruction, or a name for another one."""
        if not self.step:
            return "the machine as it is booted"
        if self.is_instruction:
            return self.issue.text
        return OTHERS[self.entry[0]].format(self.entry[1:].partition("=")[0])

    @property
    def kind(self) -> str:
        """What the step is, without its operands. An instruction has the name of docs/use/instructions.md."""
        if self.step and not self.is_instruction:
            return OTHER_KINDS[self.entry[0]]
        it = instruction(self.what) if self.is_instruction else None
        return it.row.text if it else self.what

    @property
    def title(self) -> str:
        """The step with its number and where it stands in the program."""
        if not self.step:
            return self.what
        if not self.is_instruction:
            return f"step {self.step}, {self.what}"
        number = self.steps.instruction(self.step)
        return f"step {self.step}, instruction {number}: {self.what}, at {self.issue.at}"

    @property
    def line(self) -> str:
        """The whole in one line, without the deck's name."""
        outcome = self.found.outcome
        if outcome.failure:
            log = self.steps.beginning(self.step)
            return f"{self.comparison.emulator.command} {outcome.failure}, with the log {log}: {self.title}"
        names = [it.name for it in outcome.differences]
        more = f" and {len(names) - FEW} more" if len(names) > FEW else ""
        return f"{self.title}; what differs is {', '.join(names[:FEW])}{more}"

    def note(self, name: str) -> str:
        """Which word of its package an exchange left wrong."""
        if self.step and self.entry.startswith("E") and name.startswith("M "):
            at = int(name[2:], 8) - int(self.entry[1:], 8)
            return f"  word {at:o} of the package" if 0 <= at < PACKAGE_WORDS else ""
        return ""

    @property
    def lines(self) -> Iterator[str]:
        where = f"agree before step {self.step}, and differ after it" if self.step else "differ before step 1"
        yield f"{self.name}: the dumps {where}"
        yield self.title
        if self.is_instruction:
            yield from (f"operand   {name} {value}" for name, value in self.issue.operands)
            reference = self.issue.reference(self.comparison.replayed.dump(self.step))
            yield from [f"reference {reference}"] * bool(reference)
        yield f"log       {self.steps.beginning(self.step)}"
        yield from self.table

    @property
    def table(self) -> Iterator[str]:
        differences = self.found.outcome.differences
        yield f"{'':10}{'cdc6600':22}{self.comparison.emulator.command}"
        for it in differences[:MOST]:
            yield f"{it.name:10}{it.proved:22}{it.came}{self.note(it.name)}"
        if len(differences) > MOST:
            yield f"and {len(differences) - MOST} more"

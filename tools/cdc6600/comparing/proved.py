"""The proved program, asked for what an emulator is compared with."""

import re
from typing import Sequence, TypeVar

from cdc6600.shared.decks import log_of
from cdc6600.shared.program import NoProgram, Program

from .dumps import Dump
from .emulator import DUMPED
from .faults import BadInput, Failure

# How many bytes the lines of a dump have at most before those of memory, and what each of these has.
BEFORE_MEMORY, OF_A_WORD = 1000, 30
LISTED = re.compile(r"([0-7]{6}) ([0-7]{20}) .*")
FAULT = "cdc6600: "
Kind = TypeVar("Kind", bound=Dump)


class Proved:
    """The program cdc6600. What it refuses is bad input, and so is a program that doesn't do its part."""

    def __init__(self) -> None:
        self.program = Program()

    def ask(self, words: Sequence[str], text: bytes, subject: str) -> bytes:
        """What the program prints for a command.

        Raises BadInput where it refuses it: its fault line then follows the subject."""
        try:
            ran = self.program.replay(words[1], text) if words[0] == "replay" else self.program.run(words, text)
        except NoProgram as fault:
            raise BadInput(fault.line) from None
        told = ran.told.decode("latin-1").split("\n", maxsplit=1)[0]
        if told.startswith(FAULT):
            raise BadInput(f"{subject}: {told.removeprefix(FAULT)}")
        if told or ran.status not in DUMPED:
            raise self.fault(words[0], told or f"it ended with status {ran.status}")
        return ran.printed

    def fault(self, command: str, what: str) -> BadInput:
        """What is wrong with a program that doesn't do its part."""
        return BadInput(f"{self.program.path} {command}: {what}")

    def log(self, text: bytes, name: str, *options: str) -> str:
        """The log of a run of a deck, with these options."""
        log = log_of(self.ask(["run", *options], text, name))
        if log is None:
            raise self.fault("run", "it prints no log")
        return log

    def words(self, text: bytes, name: str) -> dict[int, str]:
        """The words that a deck places, in their digits, by their addresses."""
        listed = self.ask(["list"], text, name).decode("latin-1").splitlines()
        found = [LISTED.fullmatch(line) for line in listed]
        if not all(found):
            raise self.fault("list", "it prints no listing")
        return {int(it[1], 8): it[2] for it in found if it}

    def dump(self, given: "Given", log: str) -> Dump:
        """The dump of a deck whose whole memory is shown, after a log."""
        return self.dump_as(Dump, given, log)

    def dump_as(self, kind: type[Kind], given: "Given", log: str) -> Kind:
        """The same dump as one of this kind."""
        dump = kind(self.ask(["replay", log], given.text, f"the log {log[:80]}"))
        try:
            if not dump.state or dump.size != given.size:
                raise Failure("prints no whole dump")
        except Failure as failure:
            raise self.fault("replay", f"it {failure}") from None
        return dump


class Given:
    """A deck as an emulator gets it: its words alone, and one `show` line for the whole memory."""

    def __init__(self, proved: Proved, name: str, text: bytes) -> None:
        """Reads a deck by its text; its name goes into faults.

        Raises BadInput where it is refused."""
        self.name, words = name, proved.words(text, name)
        core, start = (re.search(form, text, re.MULTILINE) for form in (rb"\Acore ([0-9]+)$", rb"^start ([0-7]+)$"))
        if not core or not start:
            raise proved.fault("list", f"it accepts {name}, which is no deck")
        self.size, lines = int(core[1]), [f"core {int(core[1])}"]
        for address, word in sorted(words.items()):
            lines += [f"at {address:o}"] * (address - 1 not in words) + [f"word {word}"]
        lines += [f"start {start[1].decode()}", f"show 0 {self.size - 1:o}", "end", ""]
        self.text = "\n".join(lines).encode("latin-1")

    def most_printed(self, log: str) -> int:
        """How many bytes a dump of it has at most after a log. Twice as many are still taken for an attempt at one."""
        return 2 * (BEFORE_MEMORY + OF_A_WORD * self.size + len(log))

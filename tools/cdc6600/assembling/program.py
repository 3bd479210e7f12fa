"""A source program, assembled: where its words are, what they have, and what its names stand for."""

from dataclasses import dataclass, field
from functools import partial
from pathlib import Path
from typing import Callable, Mapping

from cdc6600.limits import MOST_WORDS
from cdc6600.shared.instructions import Instruction

from .display_code import is_text, words_of
from .faults import Faults, Wrong, quoted
from .language import LANGUAGE
from .lines import SETTERS, Line, lines_of, read_line
from .short_forms import OF_OTHERS
from .texts import Written, written
from .values import NAME, REGISTER, WORD_BITS, fitted, value_of, within

PARCELS, PASS = 4, 0o46000
# After these the next instruction begins a word.
UNCONDITIONAL = LANGUAGE["unconditional"]
# The lines about the package, the memory and what is shown. They take no label and no word.
SETTINGS = LANGUAGE["settings"]
END, START = LANGUAGE["end"], LANGUAGE["start"]
# The operations that stand for others.
SHORT = {short.split(" ")[0]: text.split(" ")[0] for text, short in OF_OTHERS}


@dataclass
class Coded:
    """A word of instructions: its address, and the lines that they are from."""

    address: int
    parts: list[tuple[Line, Written]] = field(default_factory=list)
    instructions: list[Instruction] = field(default_factory=list)

    @property
    def number(self) -> int:
        return self.parts[0][0].number

    @property
    def free(self) -> int:
        """How many parcels are free."""
        return PARCELS - sum(it.parcels for _, it in self.parts)

    def resolve(self, names: Mapping[str, int], faults: Faults) -> None:
        """Gives the values of names to its instructions."""
        for line, it in self.parts:
            try:
                self.instructions.append(it.instruction(names))
            except Wrong as wrong:
                faults.add(line.number, wrong)

    @property
    def word(self) -> int:
        """The word, filled up with passes."""
        parcels = [parcel for it in self.instructions for parcel in it.parcels]
        filled = (parcels + [PASS] * PARCELS)[:PARCELS]
        return sum(parcel << 15 * (PARCELS - 1 - at) for at, parcel in enumerate(filled))

    @property
    def deck_line(self) -> str:
        return f"code {'; '.join(it.text for it in self.instructions)}"


@dataclass
class Given:
    """A word of DATA: its address, its line, the text of its value with its column, and the word if it is known."""

    address: int
    line: Line
    text: str
    column: int
    word: int | None = None

    @property
    def number(self) -> int:
        return self.line.number

    def resolve(self, names: Mapping[str, int], faults: Faults) -> None:
        """Gives it its value, if it hasn't one."""
        if self.word is not None:
            return
        try:
            self.word = fitted(value_of(self.text, self.column, names), WORD_BITS, self.column)
        except Wrong as wrong:
            faults.add(self.number, wrong)

    @property
    def deck_line(self) -> str:
        return f"word {self.word:020o}"


class Program:
    """A source program by its name and its text. Addresses are those of the program, from RA on."""

    def __init__(self, name: str | Path, text: str) -> None:
        self.faults, self.texts = Faults(name), lines_of(text)
        self.names, self.defined, self.settings = dict[str, int](), dict[str, int](), list[Line]()
        self.words: dict[int, Coded | Given] = {}
        # The next address, the highest one so far, the word that may take more instructions, and where lines begin.
        self.address, self.top, self.begins = 0, 0, dict[int, int]()
        self.open: Coded | None = None
        # The number of the line with END.
        self.end = 0
        for number, line in enumerate(self.texts, 1):
            self.guarded(number, partial(self.read, number, line))
        self.close()
        for word in self.words.values():
            word.resolve(self.names, self.faults)

    def guarded(self, number: int, work: Callable[[], object]) -> None:
        """Does some work on a line, and keeps what is wrong with the line."""
        try:
            work()
        except Wrong as wrong:
            self.faults.add(number, wrong)

    def read(self, number: int, text: str) -> None:
        line = read_line(number, text)
        if len(line.fields) > 1 and line.operation not in SETTERS:
            raise Wrong(line.fields[1][1] - 1, "blank")
        line.check_letters()
        if self.end and (line.label or line.operation):
            raise Wrong(1, "after the end", line=str(self.end))
        if line.operation == END:
            self.finish(line)
            return
        if line.operation == "EQU":
            self.equal(line)
            return
        works = {"DATA": self.data, "BSS": self.reserve, "ORG": self.move}
        work = works.get(SHORT.get(line.operation, line.operation))
        is_setting = line.operation in (*SETTINGS, *SETTERS)
        if line.label and (is_setting or line.operation == "ORG"):
            raise Wrong(1, "takes no label", operation=line.operation)
        if line.label or work:
            self.close()
        if line.label:
            self.guarded(number, partial(self.define, line, self.address))
            self.begins[number] = self.address
        if is_setting:
            self.settings.append(line)
        elif work:
            work(line)
        elif line.operation:
            self.instruct(line, written(line))

    def define(self, line: Line, value: int) -> None:
        """Defines the name in a line's first column."""
        name = line.label
        if not NAME.fullmatch(name):
            raise Wrong(1, "no label", text=quoted(name))
        if REGISTER.fullmatch(name):
            raise Wrong(1, "name of a register", name=name)
        if name in self.names:
            raise Wrong(1, "defined", name=name, line=str(self.defined[name]))
        self.names[name], self.defined[name] = value, line.number

    def known(self, line: Line) -> int:
        """The value of a line's operands, by the names that are defined above it."""
        if not line.operands:
            raise Wrong(line.operands_column, "no operand", operation=line.operation)
        return value_of(line.operands, line.operands_column, self.names, True)

    def finish(self, line: Line) -> None:
        if line.label:
            raise Wrong(1, "takes no label", operation=END)
        if line.operands not in ("", START):
            raise Wrong(line.operands_column, "operands of END", text=quoted(line.operands))
        self.end = line.number

    def equal(self, line: Line) -> None:
        if not line.label:
            raise Wrong(1, "no name")
        self.define(line, self.known(line))

    def move(self, line: Line) -> None:
        self.address = within(self.known(line), 0, MOST_WORDS - 1, line.operands_column)

    def reserve(self, line: Line) -> None:
        count = within(self.known(line), 0, MOST_WORDS, line.operands_column)
        self.begins[line.number] = self.address
        self.address += count
        self.top = max(self.top, self.address)

    def data(self, line: Line) -> None:
        if not line.operands:
            raise Wrong(line.operands_column, "no values", operation=line.operation)
        for text, column in line.values:
            words: list[int | None] = [*words_of(text, column)] if is_text(text) else [None]
            for word in words:
                self.place(line, Given(self.address, line, text, column, word))
                self.address += 1

    def line_at(self, address: int, parcel: int) -> int | None:
        """The number of the line whose instruction begins at a parcel of a word, or none."""
        at, word = 0, self.words.get(address)
        for line, it in word.parts if isinstance(word, Coded) else []:
            if at == parcel:
                return line.number
            at += it.parcels
        return None

    def instruct(self, line: Line, it: Written) -> None:
        """Places an instruction: in the word before if it has room, else in the next one."""
        if self.open and self.open.free < it.parcels:
            self.close()
        is_new = not self.open
        self.open = self.open or Coded(self.address)
        self.open.parts.append((line, it))
        if is_new:
            self.place(line, self.open)
        if line.operation in UNCONDITIONAL:
            self.close()

    def close(self) -> None:
        """Fills up the word that may take more instructions, if there is one."""
        if self.open:
            self.open, self.address = None, self.address + 1

    def place(self, line: Line, word: Coded | Given) -> None:
        other = self.words.get(word.address)
        if other:
            raise Wrong(line.column, "placed", address=f"{word.address:o}", line=str(other.number))
        self.words[word.address] = word
        self.begins.setdefault(line.number, word.address)
        self.top = max(self.top, word.address + 1)

"""What a source program says of its exchange package, of the memory, and of what is shown."""

from functools import partial
from typing import Callable

from cdc6600.limits import LEAST_WORDS, MOST_SHOWS, MOST_WORDS, PACKAGE_WORDS

from .faults import FAULTS, Wrong, quoted
from .language import LANGUAGE
from .lines import SETTERS, Line
from .program import START, Program
from .values import INDEX_BITS, REGISTER, WORD_BITS, fitted, octal, value_of, within

DEFAULTS = LANGUAGE["defaults"]
# Where the package has its numbers: the word and its bit 0 for those of the table's first part, by docs/use/formats.md.
MIDDLE, HEAD = 36, LANGUAGE["head"]
A_BITS, FIRST_X = 18, 8


class Settings:
    """The package, the memory and the shown words of a program. Addresses of memory count from its begin."""

    def __init__(self, program: Program) -> None:
        self.program, self.values, self.lines = program, dict[str, int](), dict[str, Line]()
        self.registers, self.shown = dict[str, int](), list[tuple[Line, int, int]]()
        for line in program.settings:
            program.guarded(line.number, partial(self.read, line))
        last = Line(max(len(program.texts), 1), "")
        program.guarded(last.number, self.look_for_start)
        self.reference = self.values.get("RA", DEFAULTS["RA"])
        self.package = self.values.get("PACKAGE", DEFAULTS["PACKAGE"])
        self.length = self.values.get("FL", program.top)
        self.needed = max(self.reference + program.top, self.package + PACKAGE_WORDS, LEAST_WORDS)
        self.size = min(max(self.needed, self.reference + self.length), MOST_WORDS)
        self.judge(self.lines.get("CORE", last), self.judge_memory)
        self.judge(self.lines.get("PACKAGE", self.lines.get("RA", last)), self.judge_package)
        for line, *words in self.shown:
            program.guarded(line.number, partial(self.judge_shown, line.operands_column, *words))

    def judge(self, line: Line, work: Callable[[int], None]) -> None:
        """Makes a judgement which a line is to be blamed for."""
        self.program.guarded(line.number, partial(work, line.column))

    def value(self, text: str, column: int) -> int:
        return value_of(text, column, self.program.names)

    def fields(self, line: Line, least: int, most: int, wanted: str) -> list[tuple[str, int]]:
        """The fields of a line's operands, so many; `wanted` is the name of what is expected."""
        fields = line.fields
        if len(fields) < least:
            column = line.operands_column + len(line.operands)
            raise Wrong(column, "too few", operation=line.operation, wanted=FAULTS[wanted])
        if len(fields) > most:
            raise Wrong(fields[most][1], "too much", text=quoted(fields[most][0]), wanted=FAULTS[wanted])
        return fields

    def read(self, line: Line) -> None:
        if line.operation in SETTERS:
            (self.set if line.operation == SETTERS[0] else self.show)(line)
            return
        name = line.operation
        text, column = self.fields(line, 1, 1, "a value")[0]
        if name in self.lines:
            raise Wrong(line.column, "given twice", operation=name, line=str(self.lines[name].number))
        self.lines[name] = line
        value = self.value(text, column)
        if name in ("CORE", "PACKAGE"):
            # The sizes that E24 allows, and the packages that E19 allows in the largest memory.
            least, most = (LEAST_WORDS, MOST_WORDS) if name == "CORE" else (0, MOST_WORDS - PACKAGE_WORDS)
            self.values[name] = within(value, least, most, column)
        else:
            self.values[name] = fitted(value, INDEX_BITS, column)

    def set(self, line: Line) -> None:
        (name, at), (text, column) = self.fields(line, 2, 2, "a register")
        if not REGISTER.fullmatch(name) or name == "B0":
            raise Wrong(at, "can't be set", text=quoted(name))
        if name in self.registers:
            raise Wrong(at, "set twice", name=name)
        self.registers[name] = 0
        self.registers[name] = fitted(self.value(text, column), WORD_BITS if name[0] == "X" else INDEX_BITS, column)

    def show(self, line: Line) -> None:
        """Reads a line that names words to be shown."""
        fields = self.fields(line, 1, 2, "an address")
        if len(self.shown) == MOST_SHOWS:
            raise Wrong(line.column, "too many", most=str(MOST_SHOWS))
        address = self.value(*fields[0])
        count = within(self.value(*fields[1]), 1, MOST_WORDS, fields[1][1]) if len(fields) > 1 else 1
        self.shown.append((line, address, count))

    def look_for_start(self) -> None:
        if START not in self.program.names:
            raise Wrong(1, "no start")

    def judge_memory(self, column: int) -> None:
        if self.needed > MOST_WORDS:
            raise Wrong(column, "too large", needed=f"{self.needed:o}", most=f"{MOST_WORDS:o}")
        self.size = self.values.get("CORE", self.size)
        if self.size < self.needed:
            raise Wrong(column, "small core", needed=f"{self.needed:o}")

    def judge_package(self, column: int) -> None:
        """Judges whether the package lies apart from the program."""
        taken = [self.reference + address for address in self.program.words]
        taken = [address for address in taken if 0 <= address - self.package < PACKAGE_WORDS]
        if taken:
            raise Wrong(column, "package", package=f"{self.package:o}", word=f"{min(taken):o}")

    def judge_shown(self, column: int, address: int, count: int) -> None:
        last = address + count - 1
        if address < -self.reference or self.reference + last >= self.size:
            raise Wrong(column, "shown", first=octal(address), last=octal(last))

    @property
    def package_words(self) -> list[int]:
        """The words of the package, in their order."""
        words = [self.registers.get(f"X{at - FIRST_X}", 0) for at in range(PACKAGE_WORDS)]
        head = {"P": self.program.names[START], "RA": self.reference, "FL": self.length,
                "EM": self.values.get("EM", DEFAULTS["EM"])}
        for at in range(FIRST_X):
            words[at] = (self.registers.get(f"A{at}", 0) << A_BITS) + self.registers.get(f"B{at}", 0)
        for name, at in HEAD.items():
            words[at] += head[name] << MIDDLE
        return words

"""Programs as they are written: instructions in words, exchange packages, and the deck that has them."""

from dataclasses import dataclass, field
from functools import reduce
from typing import Callable, Iterable, Sequence, cast

from cdc6600.shared.instructions import ROWS, Instruction

PARCELS = 4
PASS = 0o46000


def spelled(code: str, **fields: "int | Label") -> Instruction:
    """The instruction of a row, with these numbers in its fields."""
    # The text of an instruction has a label's number once that is known.
    return Instruction(ROWS[code], cast(dict[str, int], fields))


class Label:
    """The address of a word that is written later."""

    address: int

    def __format__(self, form: str) -> str:
        return format(self.address, form)


class Less(Label):
    """The address that another label has, less a number, in 18 bits of ones' complement."""

    def __init__(self, label: Label, number: int) -> None:
        self.label, self.number = label, number

    def __format__(self, form: str) -> str:
        return format((self.label.address - self.number) % 0o777777, form)


@dataclass(frozen=True)
class Parcel:
    """A parcel that is no whole instruction of the table: a refused opcode, or the first one of two."""

    number: int

    @property
    def parcels(self) -> list[int]:
        return [self.number]


Item = Instruction | Parcel


def length(item: Item) -> int:
    """How many parcels an item has."""
    return 2 if isinstance(item, Instruction) and item.row.is_long else 1


def line_of(items: Sequence[Item]) -> str:
    """The line of a word with these items; what is left of it are passes."""
    texts = [item.text for item in items if isinstance(item, Instruction)]
    if len(texts) == len(items):
        return "code " + ("; ".join(texts) or "NO")
    parcels = [parcel for item in items for parcel in item.parcels]
    parcels += [PASS] * (PARCELS - len(parcels))
    return f"word {reduce(lambda word, parcel: word << 15 | parcel, parcels):020o}"


class Code:
    """Instructions in words, from an address of the program on."""

    def __init__(self, origin: int) -> None:
        self.origin, self.words = origin, [list[Item]()]

    @property
    def room(self) -> int:
        """How many parcels of the last word are left."""
        return PARCELS - sum(map(length, self.words[-1]))

    def add(self, *items: Item) -> None:
        """Adds items, each in the last word or, where it has no room, in a new one."""
        for item in items:
            if length(item) > self.room:
                self.fill()
            self.words[-1].append(item)

    def fill(self) -> None:
        """Begins a new word; the rest of the last one are passes."""
        self.words[-1] += [spelled("46")] * self.room
        self.words.append([])

    def here(self, label: Label | None = None) -> Label:
        """The address of the word that comes next, as a label of its own where none is given."""
        if self.words[-1]:
            self.fill()
        label = label or Label()
        label.address = self.end
        return label

    @property
    def end(self) -> int:
        """The address of the word that is begun."""
        return self.origin + len(self.words) - 1

    @property
    def issued(self) -> int:
        """How many items there are, where each is issued once."""
        return sum(map(len, self.words))

    @property
    def lines(self) -> list[str]:
        """The lines of a deck that have it."""
        return [line_of(items) for items in self.words]


@dataclass
class Package:
    """An exchange package: what it has, in its order."""

    p: int | Label = 0
    ra: int = 0
    fl: int = 0
    em: int = 0
    a: list[int] = field(default_factory=lambda: [0] * 8)
    b: list[int] = field(default_factory=lambda: [0] * 8)
    x: list[int] = field(default_factory=lambda: [0] * 8)

    def words(self, ignored: Callable[[int], int]) -> list[int]:
        """Its sixteen words. What an exchange ignores of them is asked for, by a number of bits."""
        p = self.p.address if isinstance(self.p, Label) else self.p
        upper = [p, self.ra, self.fl, self.em, *(ignored(18) for _ in range(4))]
        b = [ignored(18), *self.b[1:]]
        first = [ignored(6) << 54 | upper[n] << 36 | self.a[n] << 18 | b[n] for n in range(8)]
        return first + self.x


class Deck:
    """A deck as it is written."""

    def __init__(self) -> None:
        self.parts, self.asks = list[str](), list[str]()

    def put(self, address: int, lines: Iterable[str]) -> None:
        """Puts the words of these lines at an address of memory."""
        self.parts += [f"at {address:o}", *lines]

    def put_words(self, address: int, words: Iterable[int]) -> None:
        """Puts words at an address of memory."""
        self.put(address, [f"word {word:020o}" for word in words])

    def ask(self, package: int, count: int) -> None:
        """Asks for the exchange with a package after so many instructions."""
        self.asks.append(f"ask {package:o} after {count}")

    def text(self, size: int, start: int) -> str:
        """The deck with a memory of so many words, and its first package."""
        lines = [f"core {size}", *self.parts, f"start {start:o}", *self.asks, f"show 0 {size - 1:o}", "end", ""]
        return "\n".join(lines)

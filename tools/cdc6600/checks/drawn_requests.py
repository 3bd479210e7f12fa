"""Decks of tools/random-deck, some of them with further requests for exchanges, which are drawn too."""

from dataclasses import dataclass
from functools import cached_property

from cdc6600.limits import PACKAGE_WORDS
from cdc6600.random_decks.draws import Draws
from cdc6600.random_decks.jobs import ADDRESS_BIT
from cdc6600.random_decks.kinds import drawn_deck

# The share of decks that get further requests, how many of them, and the share of these that are free.
MORE, MANY, FREE = 0.5, (1, 5), 0.2
# The share of these decks whose first program has an address fault where it refers out of range, and the word of a
# package with the exit mode.
FAULTY, MODE = 0.4, 3
# The most instructions after which a further request is made: one of these numbers.
LATEST = (4, 100, 400, 1000)
# The most instructions of a drawn budget, and how many further ones it has if it ends soon after a request is due.
MOST_BUDGET, SOON = 399, (0, 2)


@dataclass(frozen=True)
class Request:
    """A request for the exchange with a package: after so many instructions, or at any time."""

    package: int
    after: int | None

    def __str__(self) -> str:
        return f"ask {self.package:o} free" if self.is_free else f"ask {self.package:o} after {self.after}"

    @property
    def is_free(self) -> bool:
        """Whether it may be made at any time."""
        return self.after is None

    @classmethod
    def read(cls, line: str) -> "Request":
        """Reads the line of a deck."""
        _, package, _, after = line.split(" ")
        return cls(int(package, 8), int(after))


@dataclass(frozen=True)
class RequestingDeck:
    """A deck: the size of its memory, the lines that place its words, its first package and its requests."""

    size: int
    placing: tuple[str, ...]
    start: int
    requests: tuple[Request, ...]

    @classmethod
    def drawn(cls, seed: int) -> "RequestingDeck":
        """The deck of a seed."""
        draws = Draws(f"sequential {seed}")
        deck = cls.read(drawn_deck(seed))
        return deck.with_more(draws) if draws.chance(MORE) else deck

    @classmethod
    def read(cls, text: str) -> "RequestingDeck":
        """Reads a drawn deck."""
        lines = text.splitlines()
        first = next(number for number, line in enumerate(lines) if line.startswith("start "))
        requests = tuple(Request.read(line) for line in lines[first:] if line.startswith("ask "))
        return cls(int(lines[0].split()[1]), tuple(lines[1:first]), int(lines[first].split()[1], 8), requests)

    def with_more(self, draws: Draws) -> "RequestingDeck":
        """The deck with further requests, and with a second package for its first program, behind its memory: so any
        program may be begun anew."""
        requests, placing, again = list(self.requests), list(self.placing), self.size
        packages = [self.start, *(it.package for it in requests)]
        for _ in range(draws.between(*MANY)):
            package = draws.one_of((again, again, draws.one_of(packages), draws.below(self.size - PACKAGE_WORDS + 1)))
            after = None if draws.chance(FREE) else draws.below(draws.one_of(LATEST))
            requests.insert(draws.between(0, len(requests)), Request(package, after))
        first = placing.index(f"at {self.start:o}") + 1
        if draws.chance(FAULTY):
            mode = int(placing[first + MODE].removeprefix("word "), 8)
            placing[first + MODE] = f"word {mode | ADDRESS_BIT << 36:020o}"
        placing += [f"at {again:o}", *placing[first : first + PACKAGE_WORDS]]
        return RequestingDeck(self.size + PACKAGE_WORDS, tuple(placing), self.start, tuple(requests))

    @cached_property
    def text(self) -> bytes:
        """The deck as it is given to the program. Its dump has the whole memory."""
        asks = map(str, self.requests)
        show = f"show 0 {self.size - 1:o}"
        lines = [f"core {self.size}", *self.placing, f"start {self.start:o}", *asks, show, "end", ""]
        return "\n".join(lines).encode()

    @property
    def has_free(self) -> bool:
        """Whether a request may be made at any time."""
        return any(it.is_free for it in self.requests)

    @property
    def bound(self) -> "RequestingDeck":
        """The deck whose free requests come after no instruction, and last among its requests."""
        after = [it for it in self.requests if not it.is_free]
        free = [Request(it.package, 0) for it in self.requests if it.is_free]
        return RequestingDeck(self.size, self.placing, self.start, (*after, *free))

    @property
    def in_order(self) -> list[Request]:
        """All requests in the order in which a run with `--sequential` makes them, that for the first package too: each
        with a number of instructions."""
        return sorted((Request(self.start, 0), *self.bound.requests), key=lambda it: it.after or 0)

    def budget(self, seed: int) -> int:
        """The budget that is drawn for it: any one, or one that ends soon after a request is due."""
        draws = Draws(f"budget {seed}")
        due = [it.after for it in self.requests if it.after and it.after < MOST_BUDGET - max(SOON)]
        if due and draws.chance(0.5):
            return draws.one_of(due) + draws.between(*SOON)
        return draws.between(1, MOST_BUDGET)

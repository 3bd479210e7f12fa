"""Draws decks, and events that are tried on them, at random."""

import re
from random import Random
from typing import Collection, TypeVar

from cdc6600.operating.conversation import Conversation
from cdc6600.shared.decks import decks
from cdc6600.shared.program import Program

from .second_reading import UNITS

MEMORY_EVENTS = {*(f"accept {place}" for place in range(4)), *(f"return {channel}" for channel in range(1, 6))}
NEXT = {"issue": "read", "read": "finish", "finish": "store"}
# The instructions that are drawn, with the numbers of their registers and with small addresses.
REFERRING = ["SA{i} B0+1{h}", "SA{i} B0+11", "SA{i} B0+1{h}", "SA{i} B{j}+B{h}", "SA{i} B{j}+{k}", "SX{i} B{j}+{k}"]
COMPUTING = [
    "SX{i} B{j}+{k}", "SX{i} A{j}-B{h}", "SX{i} X{j}+B{h}", "BX{i} X{j}*X{h}", "BX{i} -X{j}*X{h}", "BX{i} -X{j}-X{h}",
    "BX{i} -X{j}+X{h}", "BX{i} X{j}", "IX{i} X{j}+X{h}", "IX{i} X{j}-X{h}", "LX{i} {h}", "LX{i} B{j},X{h}", "AX{i} {h}",
    "MX{i} {h}", "CX{i} X{j}",
]
OTHERS = [
    "SA{i} X{j}+B{h}", "SB{i} B{j}+{k}", "SB{i} X{j}+{k}", "NE B{j},B{h},{w}", "ZR X{j},{w}", "RJ {w}", "NO", "PS",
]


# A unit, a bank or an event.
Part = TypeVar("Part", str, int)


class DrawnDeck:
    """A deck with two packages, whose programs share some words. The results of its instructions have all numbers in
    turn, and their operands are often results of those just before or after, so that they meet conflicts."""

    def __init__(self, draw: Random) -> None:
        self.draw, self.results, self.at = draw, draw.sample(range(8), 8), 0
        self.forms = draw.choice([REFERRING, COMPUTING, REFERRING + COMPUTING, REFERRING + COMPUTING + OTHERS])

    def text(self) -> str:
        """The deck's lines."""
        lines = ["core 256"]
        for package, begin in ((0o40, 0o100), (0o60, 0o120)):
            lines += [f"at {package:o}", *(f"word {word:o}" for word in self.package(begin))]
        return "\n".join([*lines, "at 100", *(self.code() for _ in range(24)), "start 40", "end", ""])

    def package(self, begin: int) -> list[int]:
        """The words of a package, for a program that begins at an address."""
        length, mode = self.draw.choice([0o30, 0o60]), self.draw.choice([0, 0, 0o10000])
        fields = [0, begin, length, mode, 0, 0, 0, 0]
        registers = [self.draw.randrange(0o20) << 18 | self.draw.randrange(0o20) for _ in fields]
        words = [field << 36 | word for field, word in zip(fields, registers)]
        return [*words, *(self.draw.randrange(0o50) for _ in range(8))]

    def code(self) -> str:
        """A line of code with up to four parcels."""
        texts, parcels = list[str](), 0
        while parcels < 3:
            text = self.instruction()
            size = 2 if re.search(r"\+[0-7]|,[0-7]|^RJ", text) else 1
            texts += [text] * (parcels + size <= 4)
            parcels += size
        return f"code {'; '.join(texts)}"

    def instruction(self) -> str:
        """The text of an instruction."""
        draw = self.draw
        self.at += 1
        numbers = {"i": self.number(0), "j": self.operand(), "h": self.operand(), "w": draw.randrange(8)}
        return draw.choice(self.forms).format(k=f"{draw.randrange(0o50):o}", **numbers)

    def operand(self) -> int:
        """The number of an operand's register."""
        return self.number(self.draw.choice([-3, -2, -1, -1, 1, 2, 3])) if self.draw.random() < 0.8 else 0

    def number(self, further: int) -> int:
        """The number of the result that comes so many instructions later."""
        return self.results[(self.at + further) % 8]


def any_event(draw: Random) -> str:
    """An event of any kind, which may not fit at all."""
    unit, place, bank = draw.choice(UNITS), draw.randrange(5), draw.randrange(33)
    address, word = draw.randrange(0o410), draw.randrange(8)
    units = [f"{kind} {unit}" for kind in NEXT.values()]
    rare = draw.choice([f"ask {draw.choice(['40', '60', '0361', '777'])}", "exchange", f"bank {bank}"])
    access = draw.choice([f"ppread {address:o}", f"ppwrite {address:o} {word}"])
    return draw.choice(["issue", *units, f"accept {place}", f"return {draw.randrange(7)}", rare, access])


def one_of(draw: Random, parts: Collection[Part]) -> list[Part]:
    """One of these parts, in a list, which is empty where there is none."""
    return draw.sample(sorted(parts), min(len(parts), 1))


class Driver:
    """Draws the events of a session. `at` has what a reserved unit has done last, `banks` what was answered as busy,
    `empty` the events of memory that find nothing, and `is_stuck` says whether nothing is issued up to an exchange. How
    eager memory is differs from session to session, so that some hoppers are filled."""

    def __init__(self, draw: Random, deck: str) -> None:
        self.draw, self.at, self.banks, self.is_stuck = draw, dict[str, str](), set[int](), True
        self.empty = MEMORY_EVENTS
        self.eagerness = draw.choice([0.7, 0.8, 0.95])
        self.package = next(line.split(" ")[1] for line in deck.splitlines() if line.startswith("start "))

    def event(self) -> str:
        """The next event."""
        draw = self.draw
        if self.is_stuck and draw.random() < 0.3:
            return draw.choice([f"ask {self.package}", "exchange"])
        lucky = [(0.25, "issue")]
        lucky += [(0.65, f"{NEXT[self.at[unit]]} {unit}") for unit in one_of(draw, self.at)]
        lucky += [(0.7, f"bank {bank}") for bank in one_of(draw, self.banks)]
        lucky += [(self.eagerness, event) for event in one_of(draw, MEMORY_EVENTS - self.empty)]
        chance = draw.random()
        return next((event for limit, event in lucky if chance < limit), "") or any_event(draw)

    def note(self, event: str, answer: str) -> None:
        """Notes an event and its answer."""
        kind, *fields = event.split(" ")
        if kind == "issue" or event == "exchange" and answer == "ok":
            self.is_stuck = answer.split(" ")[0] in ("E1", "E2", "E5")
        if answer.startswith("ok ") and kind == "issue":
            self.at[answer.split(" ")[1]] = "issue"
        elif answer == "ok" and kind in NEXT.values():
            self.at[fields[0]] = kind
        elif answer.startswith("E13"):
            self.banks.add(int(answer.split(" ")[-1]))
        self.note_memory(event, answer)

    def note_memory(self, event: str, answer: str) -> None:
        """Notes which parts of memory have nothing: a store event of a unit, and an acceptance, may fill one."""
        kind, *fields = event.split(" ")
        if kind in ("accept", "return") and (answer == "ok" or answer.startswith("E15")):
            self.empty = self.empty | {event}
        if answer == "ok" and kind == "store":
            del self.at[fields[0]]
        if answer == "ok" and kind in ("store", "accept"):
            filled = "accept" if kind == "store" else "return"
            self.empty = {it for it in self.empty if not it.startswith(filled)}


def drawn_session(program: Program, draw: Random) -> tuple[str, list[tuple[str, str]], list[str]]:
    """The deck of a session, and its events with their answers."""
    stored = [it.text.decode("latin-1") for it in decks() if it.dump is not None]
    deck = draw.choice(stored) if draw.random() < 0.25 else DrawnDeck(draw).text()
    deck = deck[: deck.index("\nend\n") + len("\nend\n")]
    driver, conversation, made = Driver(draw, deck), Conversation(program.path, deck), list[tuple[str, str]]()
    for _ in range(draw.randrange(100, 300)):
        event = driver.event()
        made.append((event, conversation.ask(event)))
        driver.note(*made[-1])
    last = draw.choice(["end", "drain"])
    printed = conversation.ask_last(last)
    return deck, [*made, (last, printed[0])], printed

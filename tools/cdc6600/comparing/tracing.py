"""The lines of a trace: one for each step of a log, with what the step reads and writes."""

import json
import os
from collections import deque
from concurrent.futures import Future, ThreadPoolExecutor
from dataclasses import asdict, dataclass
from typing import Container, Iterable, Iterator

from cdc6600.shared.instructions import instruction

from .dumps import LOG, Dump
from .proved import Given, Proved
from .reports import HALTED, UNFETCHED, Issue
from .steps import Steps

# The bytes of a line of memory, before its word, and of the whole line.
BEFORE_WORD, OF_A_LINE = len("M 000000 "), len("M 000000 00000000000000000000\n")
# The texts of steps that are no instruction of a listing.
TEXTS = {HALTED: "?halted", UNFETCHED: "?fetch", "E": "exchange", "R": "read", "W": "write"}
# The parts of a dump that are no results of an instruction, and those that are none of an exchange: the next line has
# the position of its own instruction.
POSITION, HELD = ("P", "PARCEL", "HELD"), ("PARCEL", "HELD")
BRANCH, NOTHING = "Branch", "-"
# How many dumps are asked for ahead of the one that is printed next, for each thread.
AHEAD = 2


class Snapshot(Dump):
    """A dump whose memory stays one text, so that two dumps of a large memory are compared quickly."""

    def __init__(self, text: bytes) -> None:
        head, begins, memory = text.partition(b"\nM ")
        super().__init__(head + b"\n")
        self.memory = (begins + memory)[1:].partition(LOG.encode())[0]

    @property
    def size(self) -> int:
        return len(self.memory) // OF_A_LINE

    def word(self, address: int) -> str:
        at = address * OF_A_LINE
        return self.memory[at + BEFORE_WORD : at + OF_A_LINE - 1].decode("latin-1")

    def changed(self, after: "Snapshot") -> list[int]:
        """The addresses of the words that differ in another snapshot. Parts of memory without a difference are skipped
        whole."""
        parts, found = [(0, self.size)], list[int]()
        while parts:
            first, end = parts.pop()
            part = slice(first * OF_A_LINE, end * OF_A_LINE)
            if self.memory[part] == after.memory[part]:
                continue
            if end - first == 1:
                found.append(first)
                continue
            middle = (first + end) // 2
            parts += [(middle, end), (first, middle)]
        return found


@dataclass(frozen=True)
class Line:
    """A step: its number, the letter of its log entry, the position of an instruction, the address in memory of its
    word or of what else the step is about, its text, and the registers and words that it reads and writes."""

    step: int
    kind: str
    p: str | None
    parcel: int | None
    memory: str | None
    text: str
    operands: dict[str, str]
    results: dict[str, str]

    def __str__(self) -> str:
        position = f"{self.p or NOTHING:6} {NOTHING if self.parcel is None else self.parcel} {self.memory or NOTHING:6}"
        operands, results = (" ".join(map("=".join, it.items())) for it in (self.operands, self.results))
        values = " ".join(filter(None, (operands, "->", results)))
        return f"{self.step:8} {self.kind} {position} {self.text:15} {values}"

    @property
    def json(self) -> str:
        return json.dumps(asdict(self))


@dataclass(frozen=True)
class Step:
    """A step between two dumps, with its number and its log entry."""

    number: int
    entry: str
    before: Snapshot
    after: Snapshot

    @property
    def line(self) -> Line:
        return self.of_instruction() if self.entry[0] == "I" else self.of_access()

    def of_access(self) -> Line:
        """The line of an exchange or of a peripheral access."""
        kind, address = self.entry[0], int(self.entry[1:].partition("=")[0], 8)
        operands = self.words(self.before, [address] * (kind == "R"))
        results = self.results((), [address] * (kind == "W"), HELD)
        return Line(self.number, kind, None, None, f"{address:06o}", TEXTS[kind], operands, results)

    def of_instruction(self) -> Line:
        """The line of an instruction."""
        issue = Issue(self.before)
        it, referred = instruction(issue.text), issue.referred(self.after)
        address, is_store = referred or (0, False)
        at = issue.absolute(address) if referred else None
        words = [] if at is None else [at]
        operands = dict(issue.operands) | self.words(self.before, words * (not is_store))
        named = [*it.results, *["P"] * (it.row.unit == BRANCH)] if it else []
        results = self.results(named, words * is_store, POSITION)
        p, parcel = self.before.state["P"], self.before.number("PARCEL")
        memory = None if issue.address is None else f"{issue.address:06o}"
        return Line(self.number, "I", p, parcel, memory, TEXTS.get(issue.text, issue.text), operands, results)

    def results(self, named: Container[str], written: Iterable[int], hidden: Container[str]) -> dict[str, str]:
        """The registers and words that are named as results, and all others that changed except for hidden ones, in a
        dump's order."""
        old, new = self.before.state, self.after.state
        names = [name for name in new if name in named or (new[name] != old[name] and name not in hidden)]
        addresses = sorted({*written, *self.before.changed(self.after)})
        return {name: new[name].replace(" ", "-") for name in names} | self.words(self.after, addresses)

    @staticmethod
    def words(dump: Snapshot, addresses: Iterable[int]) -> dict[str, str]:
        """The words at some addresses of memory, by their names."""
        return {f"M{address:06o}": dump.word(address) for address in addresses}


class Trace:
    """The steps of a log on a deck. Each dump is asked for by itself, by several threads side by side."""

    def __init__(self, proved: Proved, given: Given, log: str) -> None:
        """Raises BadInput where the program refuses the log."""
        self.proved, self.given = proved, given
        proved.dump_as(Snapshot, given, log)
        self.steps = Steps(log)

    def snapshot(self, count: int) -> Snapshot:
        """The dump after so many steps."""
        return self.proved.dump_as(Snapshot, self.given, self.steps.beginning(count))

    def snapshots(self, counts: Iterable[int]) -> Iterator[Snapshot]:
        """The dumps after these numbers of steps, in their order."""
        threads, ahead = len(os.sched_getaffinity(0)), deque[Future[Snapshot]]()
        pool = ThreadPoolExecutor(threads)
        try:
            for count in counts:
                ahead.append(pool.submit(self.snapshot, count))
                if len(ahead) > AHEAD * threads:
                    yield ahead.popleft().result()
            while ahead:
                yield ahead.popleft().result()
        finally:
            pool.shutdown(cancel_futures=True)

    def lines(self, first: int, last: int) -> Iterator[Line]:
        """The lines of the steps from one number to another."""
        if first > last:
            return
        snapshots = self.snapshots(range(first - 1, last + 1))
        before = next(snapshots)
        for number, after in enumerate(snapshots, first):
            yield Step(number, self.steps.entry(number), before, after).line
            before = after

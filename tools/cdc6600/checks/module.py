"""Tries the WebAssembly module of tools/build-module and its calls for JavaScript, by Node.

- The module, with 64-bit addresses and with 32-bit ones: it imports nothing, and exports the functions of cdc6600.h and
  two of the heap. cdc6600.mjs calls each of these and no other; cdc6600.d.mts has each of its members and no other.
- For every deck the listing, the run and the replay of its log, and for every session the answers: bytes and status are
  those of the program.
- A machine that is kept, by the calls that tools/check embedding makes in Python: the events of each session one by
  one, with log, dump, registers and words; the events of `next`; texts that say no event; calls without a machine.
- Arguments that are refused, output of any length, and calls that are tried. Every block of the memory is freed.
- Where the memory is full, the status is 6, and the next call is right.
- heap.c and memory.c by themselves, with blocks, copies and fills that are drawn.
- The example run.mjs.
- Made once more of the same bitcode, the modules have the same bytes. This is tried once for each bitcode.

It says nothing if all is right, otherwise a line for each fault. CDC6600 may name the program to compare with, and
CDC6600_MODULE a folder that tools/build-module has filled. Otherwise that tool fills one, and proves the crate if a
source is newer than what it has kept. Without `wasm-opt` the module with 32-bit addresses and heap.c are left out, and
that is told. It needs `node`.

Run it after a change of the crate `embedding`, of its header, of cdc6600.mjs or of tools/cdc6600/module.
"""

import os
import re
import subprocess
import sys
import tempfile
from hashlib import sha256
from itertools import pairwise
from pathlib import Path
from typing import Any, Iterable

from cdc6600.building.building import Unproved
from cdc6600.building.library import BITCODE, HEADER, KEPT
from cdc6600.crates.kit import checker
from cdc6600.limits import MOST_INSTRUCTIONS
from cdc6600.module.kept import NARROW, WIDE, made
from cdc6600.module.module import LOWERING, OF_HEAP, Making, calls, number, sections
from cdc6600.shared.decks import deck, decks, log_of, session, sessions
from cdc6600.shared.ending import ended
from cdc6600.shared.program import ROOT, Program, Ran, tell
from cdc6600.shared.waiting import Missing, run

from . import kept_machine
from .in_node import CALLS, Functions, Machine, Node, flags_for, ran
from .kept_machine import MISSING, USAGE, differing

CRATE = ROOT / "crates/embedding"
TYPES, EXAMPLE = CRATE / "javascript/cdc6600.d.mts", CRATE / "examples/run.mjs"
HEAP_TEST = Path(__file__).with_name("module_heap.mjs")
OUT_OF_MEMORY, UNREADABLE = 6, 7
# The example is tried with a deck that stops, one that is refused, and one with an address fault.
STATUSES = (0, 1, 4)
# The checksum of the bitcode and of the modules that had the same bytes when they were made once more.
AGAIN = KEPT / "made-again"
LONGEST_FAULT = 600
# The section of a module that has the limits of its memory, and limits in pages of 64 KiB.
MEMORY, FEW_PAGES, PAGES_OF_HEAP = 5, 16, 64
LARGEST = b"core 131072\nat 100\nword 00000000000000000000\nstart 40\nend\n"
LONG = b"core 4096\nat 100\n" + b"word 01234567012345670123\n" * 3000 + b"start 40\nend\n"
HEAP = ("rattle_alloc", "rattle_realloc", "rattle_dealloc", "memcpy", "memmove", "memset", *OF_HEAP)
# What the types declare, and the header's constants.
CLASS = re.compile(r"^export class (\w+).*?\{\n(.*?)^\}", re.MULTILINE | re.DOTALL)
MEMBER = re.compile(r"^  (?:static |readonly |get )*(\w+)(?=[(:<])", re.MULTILINE)
EXPORTED = re.compile(r"^export (?:const|function|class) (\w+)", re.MULTILINE)
CALLED = re.compile(r'"(cdc6600_\w+)"')
BUDGETS = re.compile(r"^#define CDC6600_(?:LARGEST_)?BUDGET UINT64_C\((\d+)\)", re.MULTILINE)
# The line of Node for an error that nothing caught.
THROWN = re.compile(r"^\w*Error: .*", re.MULTILINE)
VERSION = re.compile(r'^#define CDC6600_VERSION "(.*)"', re.MULTILINE)


def read(file: Path) -> str:
    return file.read_text(encoding="utf-8")


def with_limit(data: bytes, pages: int) -> bytes:
    """A module whose memory has at most so many pages, fewer than 128."""
    found = data[:8]
    for kind, section in sections(data):
        if kind == MEMORY:
            least = number(section, 4)[0]
            limits = bytes([1, section[3] | 1, least, pages])
            section = bytes([MEMORY, len(limits)]) + limits
        found += section
    return found


class Tried:
    """The tries with a module in Node, and the faults that they found."""

    def __init__(self, node: Node, program: Program, name: str) -> None:
        self.node, self.program, self.name, self.faults = node, program, name, list[str]()

    def add(self, faults: Iterable[str]) -> None:
        self.faults += [f"{self.name}: {it}"[:LONGEST_FAULT] for it in faults]

    def compare(self, what: str, wanted: object, came: object) -> None:
        self.add(differing(what, wanted, came))

    def names(self) -> None:
        """The functions and the members, each list as another file has it."""
        every, types, header = sorted([*calls(), *OF_HEAP]), read(TYPES), read(HEADER)
        self.compare("the imports", [], self.node.ask("imports")["names"])
        self.compare("the exports", sorted([*every, "memory"]), sorted(self.node.ask("exports")["names"]))
        self.compare(f"the functions of {CALLS.name}", every, sorted(set(CALLED.findall(read(CALLS)))))
        declared = sorted(EXPORTED.findall(types))
        self.compare(f"the names of {TYPES.name}", declared, sorted(self.node.ask("exported")["names"]))
        members = {name: sorted(set(MEMBER.findall(body)) - {"constructor"}) for name, body in CLASS.findall(types)}
        found = {name: sorted(it) for name, it in self.node.ask("members").items() if name != "status"}
        self.compare(f"the members of {TYPES.name}", members, found)
        budgets = [int(it) for it in BUDGETS.findall(header)]
        self.compare("the budgets", budgets, self.node.ask("constants")["budgets"])
        self.compare("the version", VERSION.findall(header), [self.node.ask("version").get("printed")])

    def deck(self, it: Any) -> None:
        """Lists, runs and replays a deck."""
        budget = [int(words[1]) for words in pairwise(it.arguments) if words[0] == "--budget"]
        words = [word for number in budget for word in ("--budget", str(number))]
        wanted = self.program.run(["run", "--sequential", *words], it.text)
        self.compare(f"run {it}", wanted, self.node.call("run", it.text, *budget))
        self.compare(f"list {it}", self.program.run(["list"], it.text), self.node.call("list", it.text))
        log = log_of(wanted.printed) or "none"
        wanted = self.program.replay(log, it.text)
        self.compare(f"replay {it}", wanted, self.node.call("replay", it.text, log.encode()))

    def session(self, it: Any) -> None:
        self.compare(f"events {it}", self.program.run(["events"], it.text), self.node.call("events", it.text))

    def kept_machines(self) -> None:
        """The calls of tools/check embedding with a machine that is kept."""
        for work in kept_machine.works(lambda: Machine(self.node), Functions(self.node), decks(), sessions()):
            self.add(work())

    def texts(self) -> None:
        """Strings and bytes, and output that needs more room than a call has at first."""
        it = deck("two-adds")
        self.compare("a deck as a string", self.node.call("run", it.text), self.node.call("run", it.text.decode()))
        # The low byte of the first letter is the right one.
        far = chr(it.text[0] + 0x100) + it.text[1:].decode()
        self.compare("a string in UTF-8", self.program.run(["list"], far.encode()), self.node.call("list", far))
        self.compare("a long listing", self.program.run(["list"], LONG), self.node.call("list", LONG))
        came = self.node.ask("library", "list", "core 0\n")
        self.compare("the message of an error", came["told"], f"cdc6600: {came['message']}\n")

    def arguments(self) -> None:
        """Budgets, logs and arguments that are refused."""
        text, asked = deck("two-adds").text.decode(), session("conflicts").text
        for budget in (0, -1, MOST_INSTRUCTIONS + 1, 2**64 - 1, 2**64, 2**64 + 5):
            for name in ("run", "events"):
                came = self.node.call(name, asked, budget)
                self.compare(f"{name} with the budget {budget}", Ran(USAGE, b"", b""), came)
        for log in ("", "I0", b"\xff"):
            wanted = Ran(USAGE, b"", b"cdc6600: bad log\n")
            self.compare(f"the log {log}", wanted, self.node.call("replay", text, log))
        calls: list[tuple[Any, ...]] = [("list", 5), ("run", text, 0.5), ("replay", text)]
        for kind, words in zip(("TypeError", "RangeError", "TypeError"), calls):
            self.compare(f"{words}", kind, self.node.kind("library", *words))
        with Machine(self.node) as machine:
            machine.boot(text)
            for place in ((-1, 1), (0, -1), (0.5, 1), (2**32, 1), (0, 2**32)):
                self.compare(f"words {place}", "RangeError", self.node.kind("words", machine.number, *place))
            self.compare("words past the end", ([], 0), machine.words(2**32 - 1, 2**32 - 1))

    def tries(self) -> None:
        """What is tried leaves no trace, and what can't be tried is refused."""
        it = session("conflicts")
        with Machine(self.node) as machine:
            machine.boot(it.text)
            for line in it.schedule[:-1]:
                before = machine.log(), machine.dump(), machine.registers()
                tried = ran(self.node.ask("trying", machine.number, "event", line))
                self.compare(f"after trying {line}", before, (machine.log(), machine.dump(), machine.registers()))
                printed, told, status = machine.event(line)
                self.compare(f"trying {line}", Ran(status, printed, told), tried)
            before = machine.log()
            self.node.ask("trying", machine.number, "boot", LARGEST)
            for what in ("make", "free", "trying"):
                self.compare(f"{what} while trying", "Error", self.node.kind("forbidden", machine.number, what))
            self.compare("after a boot was tried", before, machine.log())
        self.compare("a freed machine", (b"", b"", MISSING), machine.event("issue"))

    def blocks(self) -> None:
        """Whether all blocks of the memory are freed."""
        self.compare("blocks that aren't freed", 0, self.node.ask("blocks")["count"])

    def whole(self) -> list[str]:
        self.names()
        for each in decks():
            self.deck(each)
        for it in sessions():
            self.session(it)
        for work in (self.kept_machines, self.texts, self.arguments, self.tries, self.blocks):
            work()
        return self.faults


def faults_of_full_memory(module: Any, program: Program, room: Path) -> list[str]:
    """Calls with a memory that is too small for some, and right for those after them."""
    file, it, faults = room / "limited.wasm", deck("two-adds"), []
    file.write_bytes(with_limit(module, FEW_PAGES))
    full = Ran(OUT_OF_MEMORY, b"", b"cdc6600: E21 out of memory\n")
    wanted, long = program.run(["run", "--sequential"], it.text), it.text + b" " * 10**6
    with Node(file) as node:
        for _ in range(3):
            faults += differing("a run without memory", full, node.call("run", LARGEST))
            faults += differing("the run after it", wanted, node.call("run", it.text))
            faults += differing("a text without memory", Ran(OUT_OF_MEMORY, b"", b""), node.call("run", long))
            with Machine(node) as machine:
                faults += differing("a boot without memory", (full.told, full.status), machine.boot(LARGEST))
                faults += differing("the boot after it", (b"", 0), machine.boot(it.text))
        faults += differing("blocks that aren't freed without memory", 0, node.ask("blocks")["count"])
    return faults


def faults_of_heap(room: Path) -> list[str]:
    """heap.c and memory.c in a module of their own, whose memory has a limit."""
    folder, file = room / "heap", room / "heap.wasm"
    folder.mkdir()
    making = Making(checker().parent.parent, folder)
    module = making.lowered(making.linked(HEAP, *making.of_sources())) or b""
    file.write_bytes(with_limit(module, PAGES_OF_HEAP))
    came = run(["node", HEAP_TEST, file], capture_output=True, text=True)
    trap = THROWN.findall(came.stderr) or ["it ends with no line of an error"]
    return [*came.stdout.splitlines(), *[f"the heap: {trap[0]}"] * (came.returncode != 0)]


def faults_of_example(module: Any, program: Program, room: Path) -> list[str]:
    """The example run.mjs with decks of several statuses, and with wrong words."""
    faults, empty = list[str](), room / "empty"
    words: list[str | Path] = ["node", *flags_for(module), EXAMPLE]
    empty.write_bytes(b"")
    for it in {it.status: it for it in decks() if it.status in STATUSES}.values():
        came = run([*words, module, it.file], capture_output=True)
        wanted = program.run(["run", "--sequential"], it.text)
        faults += differing(f"run.mjs {it}", wanted, Ran(came.returncode, came.stdout, came.stderr))
    for status, *given in ((USAGE,), (USAGE, module), (UNREADABLE, module, room / "missing"),
                           (UNREADABLE, empty, deck("two-adds").file)):
        came = run([*words, *given], capture_output=True)
        told = (came.returncode, came.stdout, came.stderr.count(b"\n"))
        faults += differing(f"run.mjs {given}", (status, b"", 1), told)
    return faults


def faults_of_making(folder: Path) -> list[str]:
    """The modules that are made once more of the bitcode that was kept, unless the same bytes were found so before."""
    files = [folder / name for name in (WIDE, NARROW) if (folder / name).is_file()]
    found = sha256(b"".join(it.read_bytes() for it in [KEPT / BITCODE, *files])).hexdigest()
    if AGAIN.is_file() and read(AGAIN) == found:
        return []
    again = made(KEPT / BITCODE)
    differ = [it.name for it in files if again[it.name] != it.read_bytes()]
    if not differ:
        AGAIN.write_text(found, encoding="utf-8")
    return [f"{name} has other bytes when it is made once more" for name in differ]


def faults_with(folder: Path, room: Path) -> list[str]:
    """What is wrong with the modules of a folder."""
    program, found = Program(), []
    files = [folder / name for name in (WIDE, NARROW) if (folder / name).is_file()]
    for file in files:
        with Node(file) as node:
            found += Tried(node, program, file.name).whole()
    last = files[-1]
    found += faults_of_full_memory(last.read_bytes(), program, room) + faults_of_example(last, program, room)
    if last.name == NARROW:
        return found + faults_of_heap(room)
    print(f"{sys.argv[0]}: {NARROW} and heap.c are left out: {LOWERING} isn't installed", file=sys.stderr)
    return found


def work() -> int:
    named = os.environ.get("CDC6600_MODULE")
    with tempfile.TemporaryDirectory() as name:
        room = Path(name)
        if named:
            return tell(faults_with(Path(named), room))
        subprocess.run([ROOT / "tools/build-module", room / "made"], check=True)
        return tell(faults_with(room / "made", room) + faults_of_making(room / "made"))


def main() -> int:
    return ended("tools/check module", work, Missing, Unproved, OSError, subprocess.CalledProcessError)

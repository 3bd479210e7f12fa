"""Builds the library for C and the four examples of docs/use/emulators.md, by the commands of that page, and compares
what they and the library's functions print and tell with what is stored for the decks and sessions of decks/.

- The functions, by the example in Python: the listing, the run, the replay of the log and the answers of each; the
  refused decks of refusals.md; logs and budgets that are refused; each capacity around the length of what is printed.
  The calls are made by several threads at once, and then by one with a stack of 64 KiB.
- A machine that is kept, by the same example: for each session its events made one by one have the stored answers, and
  its log, dump, registers and words are those of the dump. The events that cdc6600_next makes are answered as a session
  of their lines answers them, and lead to the dump of the deck's run, and so do those of cdc6600_advance, which stops
  at an address. After each event, in sessions that are drawn too, the contents of the parts, the reserved registers and
  the awaited operands are those of the second reading of the rules, and so are the answer that each event would get and
  the reservations that hold it back.
  Lines that say no event, calls without a machine and with one that isn't drained, and a machine in place of another.
- The examples in C and in Rust on each deck and each session; those in C and Python with files that aren't there, with
  an output that can't be written, and, in Python, with a reader that leaves and an interrupt.
- The version, which the program, the header and the library have alike; each function of the header is declared for
  Rust and for Python; the shared library exports these alone, and needs the C library alone; and tools/install with
  `pkg-config`.
- By refused_memory.c, each request for memory refused in turn, under valgrind if that is there. It tells of memory that
  isn't given back.

It says nothing where all is right, else a line for each fault. CDC6600_LIBRARY may name the folder of the library to
try, with its header; else tools/build-library builds it where a source is newer, and tells how far it is. It needs the
C compiler `cc`, `pkg-config` and `rustc`.

Run it after a change of the crate `embedding`, its header, its examples or docs/use/emulators.md.
"""

import ctypes
import os
import re
import shutil
import signal
import subprocess
import sys
import tempfile
import threading
from concurrent.futures import ThreadPoolExecutor
from functools import partial
from itertools import pairwise
from pathlib import Path
from typing import Any, Callable, Iterator, Sequence

from cdc6600.asking.library import DECLARATIONS, declarations
from cdc6600.limits import MOST_INSTRUCTIONS
from cdc6600.shared.decks import PAGES, deck, decks, lines_of, log_of, rows_of, session, sessions
from cdc6600.shared.program import ROOT, Ran, tell
from cdc6600.shared.waiting import Missing, faults_found, run

from . import kept_machine

PAGE = ROOT / "docs/use/emulators.md"
KEPT = ROOT / "crates/embedding/out"
HEADER = ROOT / "crates/embedding/include/cdc6600.h"
SMALL_STACK = 64 * 1024
NOTHING = b""
BAD_LOG = Ran(2, NOTHING, b"cdc6600: bad log\n")
BAD_BUDGET = Ran(2, NOTHING, NOTHING)
# The commands of the page that build something, and not the one that builds the library.
BUILDING = re.compile(r"    ((?:cc|rustc) .*)")
WRAPPED = "-Wl,--wrap=malloc -Wl,--wrap=realloc -Wl,--wrap=free"
COMPILER = f"cc -Wall -Wextra -Werror -I out {WRAPPED} -o out/refused_memory"
# Where the constants of the version stand, beside the library's: in the program and in the header.
VERSIONS: tuple[tuple[str | Path, str], ...] = (
    ("crates/command_line/src/version.rt", r'const VERSION: &str = "(.*)";'),
    (HEADER.relative_to(ROOT), r'#define CDC6600_VERSION "(.*)"'),
)
# What is installed of the library alone, and how it is used from there.
LIBRARY_ALONE = [word for part in ("program", "tools", "pages", "completions") for word in ("--without", part)]
PACKAGED = (
    'cc $(pkg-config --cflags cdc6600) -o out/packaged "$PREFIX/share/doc/cdc6600/crates/embedding/examples/run.c" '
    "$(pkg-config --libs cdc6600)"
)
# Words for the examples, with how these end: the status, and what the line of the fault has.
WRONG_WORDS: tuple[tuple[str, list[str | Path], int, bytes], ...] = (
    ("run", [], 2, b"usage"), ("run", ["nowhere"], 7, b"nowhere: "), ("run", ["/"], 7, b"/: "),
    ("step", [], 2, b"usage"), ("step", ["nowhere", "40"], 7, b"nowhere: "),
    ("step", [PAGE, "40"], 1, b"cdc6600: E20 line 1: first"),
)


class Unbuilt(Exception):
    """What isn't built, with what was said of it."""


class Room:
    """A folder in which the commands of the page run: it has the folders that they name, and `out`."""

    def __init__(self, folder: str) -> None:
        self.folder = Path(folder)
        for name in ("crates", "decks", "tools"):
            (self.folder / name).symlink_to(ROOT / name)

    def build(self) -> None:
        """Builds the library, if CDC6600_LIBRARY names none, and all that the page builds over it."""
        named = os.environ.get("CDC6600_LIBRARY")
        if not named and subprocess.run([ROOT / "tools/build-library", KEPT], check=False).returncode:
            raise Unbuilt("the library could not be built")
        (self.folder / "out").mkdir()
        for name in ("libcdc6600.a", "libcdc6600.so", "cdc6600.h"):
            (self.folder / "out" / name).symlink_to(Path(named or KEPT).resolve() / name)
        for command in filter(None, map(BUILDING.fullmatch, lines_of(PAGE))):
            self.run(command[1])
        self.run(f"{COMPILER} tools/cdc6600/checks/refused_memory.c out/libcdc6600.a")

    def run(self, command: str) -> None:
        """Runs a command that has to end well."""
        ran = run(["sh", "-c", command], cwd=self.folder, capture_output=True, text=True)
        if ran.returncode:
            raise Unbuilt(f"{command}: {ran.stderr.strip()}")

    def ran(self, *words: Any) -> Ran:
        """How a program of `out` ends."""
        ran = run([self.folder / "out" / words[0], *words[1:]], cwd=ROOT, capture_output=True)
        return Ran(ran.returncode, ran.stdout, ran.stderr)


def library(file: Path) -> Any:
    """The library, by the class of the example in Python, whose other class kept_machine gets."""
    kept_machine.Machine = declarations().Machine
    return declarations().Library(file)


def called(function: Callable[..., Any], *given: Any) -> Ran:
    """How a call of the library ends, as a run of the program does."""
    printed, told, status = function(*given)
    return Ran(status, printed, told)


def differing(what: str, wanted: Any, came: Any) -> list[str]:
    """A fault where a call ends otherwise than is wanted."""
    return [] if wanted == came else [f"{what}: wanted {tuple(wanted)}, and not {tuple(came)}"]


def budget_of(it: Any) -> list[int]:
    """The budget among the further arguments of a deck's run, if there is one."""
    return [int(words[1]) for words in pairwise(it.arguments) if words[0] == "--budget"]


def faults_of_deck(room: Room, functions: Any, it: Any) -> list[str]:
    """Lists, runs and replays a deck, by the functions and by the example in C; the faults."""
    if it.dump is None:
        refused = Ran(it.status, NOTHING, it.told)
        faults = differing(f"list {it}", refused, called(functions.list, it.text))
        faults += differing(f"run {it}", refused, called(functions.run, it.text))
        return faults + differing(f"out/run {it}", refused, room.ran("run", it.file, "none"))
    log, budget = log_of(it.dump) or "", budget_of(it)
    wanted = Ran(it.status, it.dump, it.told)
    faults = differing(f"run {it}", wanted, called(functions.run, it.text, *budget))
    if not budget:
        faults += differing(f"out/run {it}", wanted, room.ran("run", it.file))
    faults += differing(f"replay {it}", wanted, called(functions.replay, it.text, log.encode()))
    faults += differing(f"out/run {it} '{log}'", wanted, room.ran("run", it.file, log))
    if it.listing is not None:
        faults += differing(f"list {it}", Ran(0, it.listing, NOTHING), called(functions.list, it.text))
    return faults


def faults_of_session(room: Room, functions: Any, it: Any) -> list[str]:
    """Answers the events of a session, by the function and by the example in Rust; the faults."""
    wanted = Ran(0, it.answers, NOTHING)
    faults = differing(f"events {it}", wanted, called(functions.events, it.text))
    return faults + differing(f"out/events {it}", wanted, room.ran("events", it.file))


def faults_of_refusal(functions: Any, text: str, fault: str) -> list[str]:
    """A row of refusals.md, a deck with its line and fault; the faults."""
    shown = text.replace("\\n", "\n").replace("\\r", "\r").encode()
    wanted = Ran(1, NOTHING, f"cdc6600: E20 line {fault}\n".encode())
    return differing(f"the deck {text}", wanted, called(functions.list, shown))


def faults_of_arguments(functions: Any) -> list[str]:
    """Logs and budgets at their edges; the faults."""
    it, asked = deck("two-adds"), session("conflicts")
    faults = []
    for log in (b"I0", b"", b"\xff", b"E40 I6\x00"):
        faults += differing(f"the log {log!r}", BAD_LOG, called(functions.replay, it.text, log))
    outside = Ran(2, NOTHING, b"cdc6600: E19 package range\n")
    faults += differing("the log E777", outside, called(functions.replay, it.text, b"E777"))
    for budget in (0, MOST_INSTRUCTIONS + 1, 2**64 - 1):
        faults += differing(f"the budget {budget}", BAD_BUDGET, called(functions.events, asked.text, budget))
        faults += differing(f"a run with the budget {budget}", BAD_BUDGET, called(functions.run, it.text, budget))
    largest = called(functions.events, asked.text, MOST_INSTRUCTIONS)
    return faults + differing("the largest budget", Ran(0, asked.answers or NOTHING, NOTHING), largest)


def faults_of_capacities(functions: Any) -> list[str]:
    """Calls with room for nothing, for a part, for all and for more; the faults."""
    it, faults = deck("two-adds"), list[str]()
    function, listing = functions.library.cdc6600_list, it.listing or NOTHING
    for capacity in (0, 1, len(listing) - 1, len(listing), len(listing) + 1):
        room = ctypes.create_string_buffer(b"-" * (capacity + 8), capacity + 8)
        line = ctypes.create_string_buffer(1)
        lengths = [ctypes.c_size_t(length) for length in (len(it.text), capacity, 0)]
        came = function(it.text, lengths[0], room, lengths[1], line, lengths[2])
        wanted = listing[:capacity].ljust(capacity + 8, b"-")
        ended = (came.printed, came.told, came.status)
        faults += differing(f"list with room for {capacity}", ((len(listing), 0, 0), wanted), (ended, room.raw))
    return faults


def faults_of_version(functions: Any) -> list[str]:
    """The version of the program, the header and the library, unless they are one."""
    version, faults = functions.version().decode(), []
    for name, pattern in VERSIONS:
        found = re.findall(pattern, (ROOT / name).read_text(encoding="utf-8"))
        faults += differing(f"the version of {name}", ([version],), (found,))
    return faults


def faults_of_declarations() -> list[str]:
    """The functions that a language's declarations lack of those of the header, or have besides."""
    header = set(re.findall(r"\b(cdc6600_\w+)\(", HEADER.read_text(encoding="utf-8")))
    rust = set(re.findall(r"fn (cdc6600_\w+)", DECLARATIONS.with_suffix(".rs").read_text(encoding="utf-8")))
    text = DECLARATIONS.read_text(encoding="utf-8")
    python = {name for name in header if re.search(rf'"{name}"|"{name[8:]}"|\.{name}\b', text)}
    return differing("the functions in Rust", (header,), (rust,)) + differing("those in Python", (header,), (python,))


def faults_of_exports(room: Room) -> list[str]:
    """The soname of the shared library, what it needs besides the C library, and what it exports besides the header's
    functions."""
    shared = room.folder / "out/libcdc6600.so"
    dynamic = run(["readelf", "-d", shared], capture_output=True, text=True).stdout
    exported = run(["nm", "-D", "--defined-only", shared], capture_output=True, text=True).stdout.split()[2::3]
    header = sorted(set(re.findall(r"\b(cdc6600_\w+)\(", HEADER.read_text(encoding="utf-8"))))
    faults = differing("what it needs", (["libc.so.6"],), (re.findall(r"\(NEEDED\).*\[(.*)\]", dynamic),))
    faults += differing("the soname", (["libcdc6600.so.0"],), (re.findall(r"soname: \[(.*)\]", dynamic),))
    return faults + differing("the exports", (header,), (sorted(exported),))


def stepped(functions: Any, it: Any, address: bytes) -> bytes:
    """What the example step.c prints of a deck."""
    with kept_machine.Machine(functions) as machine:
        machine.boot(it.text)
        lines = [b"ask " + address + b": " + machine.event(b"ask " + address)[0]]
        while lines[-1].partition(b": ")[2].startswith(b"ok"):
            event, _, answer = machine.next()[0].partition(b"\n")
            lines.append(event + b": " + answer)
        registers = [b"X%d %020o\n" % (n, word) for n, word in enumerate(machine.registers()[0].x) if word]
        return b"".join([*lines, machine.log()[0] + b"\n", *registers])


def faults_of_examples(room: Room, functions: Any) -> list[str]:
    """The examples in C with wrong words, with an output that can't be written, and a machine by steps."""
    faults, it = [], deck("two-adds")
    for name, words, status, begin in WRONG_WORDS:
        came = room.ran(name, *words)
        faults += differing(f"out/{name} {words}", (status, True), (came.status, came.told.startswith(begin)))
    wanted = Ran(0, stepped(functions, it, b"40"), NOTHING)
    faults += differing(f"out/step {it} 40", wanted, room.ran("step", it.file, "40"))
    long = room.folder / "long.deck"
    long.write_bytes(it.text + b"x" * 3_000_000)
    faults += differing("out/run of a long file", Ran(0, it.dump or NOTHING, NOTHING), room.ran("run", long))
    for program, *given in (("run", str(it.file)), ("step", str(it.file), "40")):
        with open("/dev/full", "wb") as full:
            ran = run([room.folder / "out" / program, *given], stdout=full, stderr=subprocess.PIPE)
        faults += differing(f"{program} {given} to /dev/full", (7, 1), (ran.returncode, ran.stderr.count(b"\n")))
    return faults


class Python:
    """The example in Python, as a program."""

    def __init__(self, room: Room) -> None:
        self.words, self.library = [sys.executable, str(DECLARATIONS)], str(room.folder / "out/libcdc6600.so")

    def faults(self, room: Room) -> list[str]:
        """How it ends with wrong words, and where its output can't be written; the faults."""
        it, missing, faults = deck("two-adds"), str(room.folder / "missing"), []
        for words, status in (([], 2), ([missing, "x"], 7), ([str(it.file), str(it.file)], 7),
                              ([self.library, missing], 7),
                              ([self.library, "/"], 7), ([self.library, str(PAGE)], 1), ([self.library, ""], 7)):
            faults += self.ended(words, status)
        good = [self.library, str(it.file)]
        with open("/dev/full", "wb") as full:
            faults += self.ended(good, 7, stdout=full)
        faults += self.ended(good, 7, preexec_fn=lambda: os.close(1))
        faults += self.ended([], 2, preexec_fn=lambda: os.close(2), lines=0)
        ran = run([*self.words, *good], capture_output=True)
        came = Ran(ran.returncode, ran.stdout, ran.stderr)
        faults += differing("cdc6600.py", Ran(0, it.dump or NOTHING, NOTHING), came)
        return faults + self.interrupted(room) + self.unread(good)

    def ended(self, words: Any, status: int, lines: int = 1, **streams: Any) -> list[str]:
        """Calls it; a fault if it ends with another status, or tells more than a line or none."""
        streams = {"stdout": subprocess.DEVNULL, **streams}
        ran = run([*self.words, *words], stderr=subprocess.PIPE, **streams)
        return differing(f"cdc6600.py {words}", (status, lines), (ran.returncode, ran.stderr.count(b"\n")))

    def interrupted(self, room: Room) -> list[str]:
        """Interrupts it while it reads."""
        pipe = room.folder / "pipe"
        os.mkfifo(pipe)
        with subprocess.Popen([*self.words, self.library, str(pipe)], stderr=subprocess.PIPE) as process:
            with open(pipe, "wb"):
                process.send_signal(signal.SIGINT)
                told = process.communicate()[1]
        return differing("cdc6600.py interrupted", (-signal.SIGINT, NOTHING), (process.returncode, told))

    def unread(self, good: list[str]) -> list[str]:
        """Has nobody read what it prints."""
        reader, writer = os.pipe()
        os.close(reader)
        ran = run([*self.words, *good], stdout=writer, stderr=subprocess.PIPE)
        os.close(writer)
        return differing("cdc6600.py unread", (-signal.SIGPIPE, NOTHING), (ran.returncode, ran.stderr))


def faults_of_installing(room: Room) -> list[str]:
    """Installs the library alone, builds an example with what pkg-config says, and removes it."""
    prefix = room.folder / "prefix"
    how: dict[str, Any] = {"cwd": room.folder, "capture_output": True, "text": True}
    environment = {**os.environ, "CDC6600_LIBRARY": str(room.folder / "out"), "PREFIX": str(prefix),
                   "PKG_CONFIG_PATH": str(prefix / "lib/pkgconfig")}
    faults, it = [], deck("two-adds")
    commands: list[list[str | Path]] = [[ROOT / "tools/install", *LIBRARY_ALONE, prefix], ["sh", "-c", PACKAGED]]
    for command in commands:
        ran = run(command, env=environment, **how)
        faults += differing(f"{command}", (0, "", ""), (ran.returncode, ran.stdout, ran.stderr))
    if not faults:
        faults += differing("out/packaged", Ran(0, it.dump or NOTHING, NOTHING), room.ran("packaged", it.file))
    run([ROOT / "tools/install", "--uninstall", prefix], env=environment, **how)
    return faults + [f"--uninstall leaves {file}" for file in sorted(prefix.rglob("*"))]


def faults_of_memory(room: Room, it: Any) -> list[str]:
    """Each request for memory refused in turn; the faults."""
    came = room.ran("refused_memory", it.file, log_of(it.answers) or "none")
    return [] if came == Ran(0, NOTHING, NOTHING) else [f"{it}: {line}" for line in came.printed.decode().splitlines()]


def faults_of_leaks(room: Room) -> list[str]:
    """What valgrind says of a machine by steps, if valgrind is there."""
    if not shutil.which("valgrind"):
        return []
    words = ["valgrind", "-q", "--leak-check=full", "--error-exitcode=9"]
    ran = run([*words, room.folder / "out/step", deck("two-adds").file, "40"], capture_output=True, text=True)
    return differing("valgrind of out/step", (0, ""), (ran.returncode, ran.stderr))


def fault_of_small_stack(
    functions: Any, listed: Sequence[bytes], replayed: Sequence[tuple[bytes, bytes]], asked: Sequence[bytes]
) -> list[str]:
    """The calls for some decks and sessions again, by a thread with a stack of 64 KiB; a fault if one doesn't end."""
    ended = list[int]()

    def call_all() -> None:
        ended.extend(functions.list(it)[2] for it in listed)
        ended.extend(functions.run(it)[2] for it in listed)
        ended.extend(functions.replay(text, log)[2] for text, log in replayed)
        ended.extend(functions.events(it)[2] for it in asked)

    before = threading.stack_size(SMALL_STACK)
    thread = threading.Thread(target=call_all)
    thread.start()
    thread.join()
    threading.stack_size(before)
    wanted = 2 * len(listed) + len(replayed) + len(asked)
    return [] if len(ended) == wanted else [f"with a small stack {len(ended)} calls of {wanted} end"]


def works(room: Room, functions: Any) -> Iterator[Callable[[], list[str]]]:
    """All that is tried, each as a call that gives its faults."""
    for each in decks():
        yield partial(faults_of_deck, room, functions, each)
    for it in sessions():
        yield partial(faults_of_session, room, functions, it)
        yield partial(faults_of_memory, room, it)
    for text, fault, _ in rows_of(PAGES / "refusals.md"):
        yield partial(faults_of_refusal, functions, text, fault)
    for of_functions in (faults_of_arguments, faults_of_capacities, faults_of_version):
        yield partial(of_functions, functions)
    for of_room in (faults_of_exports, faults_of_installing, faults_of_leaks, Python(room).faults):
        yield partial(of_room, room)
    yield faults_of_declarations
    yield partial(faults_of_examples, room, functions)
    yield from kept_machine.works(lambda: kept_machine.Machine(functions), functions, decks(), sessions())


def main() -> int:
    with tempfile.TemporaryDirectory() as folder:
        room = Room(folder)
        try:
            room.build()
        except (Unbuilt, Missing) as fault:
            return tell([str(fault)])
        functions = library(room.folder / "out/libcdc6600.so")
        with ThreadPoolExecutor() as pool:
            found = list(pool.map(faults_found, works(room, functions)))
        replayed = [(it.text, (log_of(it.dump) or "").encode()) for it in decks() if it.dump]
        asked = [it.text for it in sessions()]
        found.append(fault_of_small_stack(functions, [it.text for it in decks()], replayed, asked))
    return tell([fault for faults in found for fault in faults])

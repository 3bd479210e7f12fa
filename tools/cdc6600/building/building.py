"""Proves a crate with all crates on which it stands, and builds it, each crate over what those below it state.

tools/build-program builds the program by it, tools/build-library the static library for C.
"""

import fcntl
import os
import re
import shutil
import signal
import subprocess
import sys
import threading
import time
from concurrent.futures import FIRST_COMPLETED, Future, ThreadPoolExecutor, wait
from contextlib import contextmanager
from dataclasses import dataclass
from pathlib import Path
from types import FrameType
from typing import Callable, Iterable, Iterator, Mapping

from cdc6600.crates.kit import checker
from cdc6600.crates.table import Table, Unreadable
from cdc6600.shared.program import ROOT

from . import host
from .forecast import Forecast, measured
from .processes import ENDING, run, stop_all

# What a verdict may not mention: C code, functions that may not return, and parts that were let pass without proof.
EXCUSES = re.compile(r" (foreign|hides|partial|may-abort|may-serve|bugs|holes)=")
SOURCE_SUM = ROOT / "tools/source-sum"
# The file of a crate that has the version of the program.
VERSION = "src/version.rt"
# A crate without a measured time takes about as long as so many lines before it comes to any of its own.
LINES_BEFORE = 400
LINES_OF_A_FAULT = 40
LEAST_URGENT = 19
# The seconds after which a signal is sent again.
MOMENT = 0.1


class Unproved(Exception):
    """A crate that isn't proved, or what isn't linked. Its text is for the user."""


@dataclass(frozen=True)
class Product:
    """What the crate at the top is built into: the source that the checker reads, how the file's name ends, and the
    words that ask for it."""

    source: str
    ending: str
    words: tuple[str, ...] = ()


PROGRAM = Product("main.rt", ".o")
LIBRARY = Product("lib.rt", ".a", ("--crate-type", "staticlib"))


def tell(words: str) -> None:
    print(f"cdc6600: {words}", file=sys.stderr, flush=True)


class Plan:
    """The crates to prove, lowest first, each with its work in seconds of a processor, and how urgent it is. Those that
    are given make no work."""

    def __init__(self, table: Table, top: str, given: Iterable[str] = ()) -> None:
        self.crates = [*table.below(top), top]
        self.uses = {name: [it for it in table.uses[name] if it in self.crates] for name in self.crates}
        self.work = work_of(table, self.crates)
        self.work.update((name, 0) for name in given)
        ahead, behind = dict[str, float](), dict[str, float]()
        for name in self.crates:
            ahead[name] = max((ahead[it] + self.work[it] for it in self.uses[name]), default=0)
        for name in reversed(self.crates):
            above = [it for it in self.crates if name in self.uses[it]]
            behind[name] = self.work[name] + max((behind[it] for it in above), default=0)
        longest = max(behind.values())
        # How much later than it could a crate may begin and hold up nothing, in twentieths of the whole.
        slack = {name: int(20 * (longest - ahead[name] - behind[name]) / longest) for name in self.crates}
        self.nice = {name: min(LEAST_URGENT, slack[name]) for name in self.crates}


def commit_of(root: Path) -> str:
    """The commit of a checkout, with a plus sign if its sources aren't those of the commit. It is `unknown` if there
    is none, or no git."""
    git = ["git", "-C", str(root)]
    if not shutil.which("git"):
        return "unknown"
    found = subprocess.run([*git, "rev-parse", "--short=12", "HEAD"], capture_output=True, text=True, check=False)
    if found.returncode:
        return "unknown"
    status = [*git, "status", "--porcelain", "--", "crates", "crates.txt"]
    changed = subprocess.run(status, capture_output=True, check=False)
    return found.stdout.strip() + ("+" if changed.stdout else "")


def source_sum(root: Path) -> bytes:
    """What an executable of a repository is built from, as tools/source-sum prints it."""
    return subprocess.run([SOURCE_SUM, root], stdout=subprocess.PIPE, check=False).stdout


def kits(before: bytes, now: bytes) -> tuple[str, str] | None:
    """The kits of two texts of tools/source-sum, if only the kit is another one."""
    (sources, kit), (own, its) = (it.decode(errors="replace").strip().partition("\nkit ")[::2] for it in (before, now))
    return (kit, its) if sources == own and kit and its and kit != its else None


def kit_name() -> str:
    """The kit's name with the number of its logic."""
    said = subprocess.run([checker().with_name("rt"), "version"], capture_output=True, text=True, check=False)
    return said.stdout.strip() or "an unknown kit"


def lines_of(folder: Path) -> int:
    """The lines of a crate's code, without its tests."""
    files = (file for file in (folder / "src").rglob("*.rt") if "test" not in file.name)
    return sum(len(file.read_bytes().splitlines()) for file in files)


def work_of(table: Table, names: Iterable[str]) -> dict[str, float]:
    """The work of each crate: its measured seconds, or about as many if it has none, by its lines."""
    lines = {name: LINES_BEFORE + lines_of(table.folder(name)) for name in names}
    seconds = {name: taken for name, taken in measured(table.root).items() if name in names}
    pace = sum(seconds.values()) / sum(lines[name] for name in seconds) if seconds else 1
    return {name: seconds.get(name, pace * lines[name]) for name in names}


def words_of(table: Table, name: str, libraries: Mapping[str, Path], top: str) -> list[str]:
    """The words by which the checker reads a crate, from this source on, over the libraries below it."""
    kit, below = checker().parent.parent, {it: libraries[it] for it in table.below(name)}
    found = ["--crate-name", name, top]
    for it in ["std", *table.uses[name]]:
        found += ["--extern", f"{it}={below.get(it, kit / f'rlibs/{it}.rlib')}"]
    for place in dict.fromkeys([*(file.parent for file in below.values()), kit / "rlibs"]):
        found += ["-L", f"dependency={place}"]
    return [*found, "--logic-built", f"{kit}/logic_built", "--antt-project", f"{kit}/rattle/logic/antt-project.json"]


def proved(name: str, words: list[str], folder: Path) -> float:
    """Proves a crate by this command in a folder; the seconds of a processor that it took.

    Raises Unproved with the end of the checker's output if the crate isn't proved."""
    ran = run(words, folder)
    lines = [line for line in ran.said.rstrip().split("\n") if not line.startswith("statements ")]
    verdict = lines[-1] if lines[-1].startswith("logic=proved ") else ""
    if ran.status or not verdict or EXCUSES.search(verdict):
        raise Unproved("\n".join([*lines[-LINES_OF_A_FAULT:], f"cdc6600: {name} isn't proved"]))
    return ran.seconds


class Building:
    """Proves the crate at the top and those below it, each into a folder of its own in the room. The libraries that are
    given are proved already."""

    def __init__(self, table: Table, top: str, product: Product, room: Path,
                 given: Mapping[str, Path] | None = None) -> None:
        self.table, self.top, self.product, self.room = table, top, product, Path(room)
        self.kit, self.given, self.seconds = checker().parent.parent, given or {}, dict[str, float]()
        # The tools that compile the crate at the top.
        self.toolchain = self.kit / "toolchain"
        self.plan, self.proved = Plan(table, top, self.given), set(self.given)
        self.forecast = Forecast(self.plan, host.places(), max(host.free_memory() // host.NEEDED, 1))

    def made(self, name: str) -> Path:
        """What a crate is built into."""
        if name in self.given:
            return self.given[name]
        return self.room / name / f"{name}{self.product.ending if name == self.top else '.rlib'}"

    def sources(self, name: str) -> Path:
        """The folder of a crate's sources. That of the crate that has the version is a copy, in which the commit and
        the kit stand behind the number."""
        folder = self.table.folder(name)
        if not (folder / VERSION).is_file():
            return folder
        copy = self.room / f"{name}-sources"
        shutil.copytree(folder, copy, ignore=shutil.ignore_patterns("out"))
        text = (copy / VERSION).read_text(encoding="utf-8")
        built = f'\\1 (commit {commit_of(self.table.root)}, {kit_name()})";'
        (copy / VERSION).write_text(re.sub(r'(VERSION: &str = "[0-9.]+)";', built, text), encoding="utf-8")
        return copy

    def words(self, name: str) -> list[str]:
        """The words by which the checker proves a crate and builds it over the libraries below it."""
        root = self.sources(name) / "src" / (self.product.source if name == self.top else "lib.rt")
        below = {it: self.made(it) for it in self.table.below(name)}
        compiling = ["--toolchain", str(self.toolchain), "--backend", "llvm", *self.product.words]
        return ["nice", "-n", str(self.plan.nice[name]), str(checker()), "build",
                *words_of(self.table, name, below, str(root)), "--jobs", str(self.jobs(name)),
                *(compiling if name == self.top else ["--statements"]), "-o", str(self.made(name))]

    def jobs(self, name: str) -> int:
        """How many processes a check may use. With several it takes a fourth more of processor time, so only those
        have them for which others wait."""
        return 1 if self.plan.nice[name] else host.places()

    def prove(self, name: str) -> None:
        """Proves and builds a crate.

        Raises Unproved with the end of what the checker said, where it isn't proved."""
        (self.room / name).mkdir()
        self.forecast.begin(name, time.monotonic())
        self.seconds[name] = proved(name, self.words(name), self.room / name)

    def tell(self, name: str) -> None:
        """Tells that a crate is proved, and about how long the others will take."""
        self.proved.add(name)
        many, total = len(self.proved), len(self.plan.crates)
        minutes = self.forecast.minutes_left(name, self.proved, time.monotonic())
        left = "" if many == total else f"; about {minutes} minutes left" if minutes > 1 else "; about a minute left"
        tell(f"{name} is proved, {many} of {total} crates{left}")

    def prove_all(self) -> None:
        """Proves each crate once those below it are proved, as many side by side as there is memory for."""
        left = [name for name in self.plan.crates if name not in self.given]
        running: dict[Future[None], str] = {}
        with ThreadPoolExecutor(len(left)) as pool:
            try:
                while left or running:
                    for name in self.ready(left, not running):
                        left.remove(name)
                        running[pool.submit(self.prove, name)] = name
                    for ended in wait(running, return_when=FIRST_COMPLETED).done:
                        name = running.pop(ended)
                        ended.result()
                        self.tell(name)
            except BaseException:
                stop_all()
                raise

    def ready(self, left: list[str], is_first: bool) -> list[str]:
        """The crates to begin with now, the most urgent ones first; where memory is short, one if none runs."""
        found = [name for name in left if self.proved.issuperset(self.plan.uses[name])]
        room = max(host.free_memory() // host.NEEDED, 1 if is_first else 0)
        return sorted(found, key=lambda it: self.plan.nice[it])[:room]


def put(made: Path, file: Path, begun: float) -> None:
    """Puts what was made where a file is to stand. It gets the time at which it was begun, so that a source that was
    changed meanwhile is newer."""
    file.parent.mkdir(parents=True, exist_ok=True)
    part = file.with_name(f"{file.name}.new")
    shutil.copy(made, part)
    os.utime(part, (begun, begun))
    part.replace(file)


@contextmanager
def locked(file: Path) -> Iterator[None]:
    """Within it no other call builds the same file. The kernel removes the lock of a call that is killed."""
    file.parent.mkdir(parents=True, exist_ok=True)
    with open(f"{file}.lock", "wb") as lock:
        try:
            fcntl.flock(lock, fcntl.LOCK_EX | fcntl.LOCK_NB)
        except BlockingIOError:
            tell(f"another call builds {file}; this one waits for it")
            fcntl.flock(lock, fcntl.LOCK_EX)
        yield


def end(number: int, _: FrameType | None) -> None:
    """Ends this process after a signal, and ignores further signals. Ctrl-C arrives twice: from the terminal, and from
    the script that waits for this process."""
    for it in ENDING:
        signal.signal(it, signal.SIG_IGN)
    sys.exit(128 + number)


def repeat(signals: int) -> None:
    """Sends each signal to the main thread again, a moment later, if `end` hasn't handled it by then. The main thread
    misses a signal that arrives just before it begins to wait."""
    while number := os.read(signals, 1):
        time.sleep(MOMENT)
        if signal.getsignal(number[0]) is end:
            signal.pthread_kill(threading.main_thread().ident or 0, number[0])


def ended(work: Callable[[], int]) -> int:
    """Goes through the work of a tool that builds; its status. A signal ends it too, with all that it has started, and
    so does a fault of the system, such as a full disk, with a line."""
    signals, caught = os.pipe()
    os.set_blocking(caught, False)
    signal.set_wakeup_fd(caught)
    threading.Thread(target=repeat, args=(signals,), daemon=True).start()
    for number in ENDING:
        signal.signal(number, end)
    try:
        return work()
    except (Unproved, Unreadable) as reason:
        print(reason, file=sys.stderr)
    except OSError as fault:
        tell(f"{fault.filename}: {fault.strerror}" if fault.filename else fault.strerror)
    return 1

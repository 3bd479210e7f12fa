"""Tries on a fresh machine what README.md says of the set-up and of a first run.

    .ci/fresh-machine [--quick] [--keep] [FOLDER]

As root it makes a minimal Debian 12 in FOLDER, with the packages that README.md names under "What it needs" and with
the kit, which can't be written there. The last commit of this checkout is cloned into it. Then it runs the commands of
README.md under "A first run", word for word: `.ci/run` as root, the others as an ordinary user, who owns the clone.

With --quick, which takes ten minutes, nothing is proved: it leaves out the commands that prove the program, and calls
`.ci/run --to small` and `tools/check --needs` for `.ci/run`. The whole trial takes an hour and a half, and 15 GB of
disk.

FOLDER may not exist yet; it is a temporary folder if none is named. At the end everything is unmounted, and the folder
is removed; with --keep it stays, and `chroot FOLDER/system` enters it.

Each step is a line with its time. A step that fails is followed by the command, its status, its last lines, and what
these say is missing. Nothing is tried after it. The last line is a count, `N passed, M failed`.

Exit status:
  0    each step passed
  1    a step failed
  2    the trial can't be made here, or the command line is refused
"""

import argparse
import os
import re
import signal
import subprocess
import sys
import tempfile
import time
from functools import partial
from pathlib import Path
from typing import Callable, Iterator

from cdc6600.checks.debian import Needed, how_to_install, is_provided, names_of
from cdc6600.crates.kit import checker
from cdc6600.crates.table import Unreadable
from cdc6600.shared.program import ROOT

from .readme import PAGE, Command, commands, packages
from .system import USER, Failed, System

# The programs of the host that make the machine.
NEEDED = (Needed("mmdebstrap", ("mmdebstrap",), ()), Needed("git", ("git",), ()))
GATE, NEEDS, UNPROVED = ".ci/run", "tools/check --needs", "--unproved"
SMALL = f"{GATE} --to small"
# How the shell, the linker, Python and others say that something isn't there.
LACKS = re.compile(
    r"not found|No such file|No module named|cannot find -l|shared libraries|not installed|isn't installed|"
    r"Unable to locate"
)
# What is left out for want of a program is no fault.
LEFT_OUT = "left out: "
LAST_LINES = 40


class Refused(Exception):
    """Why the trial can't be made here."""


class Trial:
    """The steps of a trial: how many passed, and how many failed."""

    def __init__(self, system: System, is_quick: bool) -> None:
        self.system, self.is_quick, self.passed, self.failed = system, is_quick, 0, 0

    def step(self, name: str, work: Callable[[], object]) -> None:
        """Goes through a step, and prints its line.

        Raises Failed if it fails."""
        begun, told = time.monotonic(), "ended"
        try:
            work()
            self.passed, told = self.passed + 1, "passed"
        except Failed:
            self.failed, told = self.failed + 1, "failed"
            raise
        finally:
            print(f"{told}, {(time.monotonic() - begun) / 60:.1f} minutes: {name}", flush=True)

    def run(self, command: Command) -> None:
        """Runs a command of the page. It has to end with 0 and to print the lines that the page shows of it."""
        is_gate = command.words.startswith((GATE, NEEDS))
        ended = self.system.run(command.words, is_root=is_gate, is_shown=is_gate)
        lacking = [line for line in command.shown if line not in ended.printed]
        if ended.status or lacking:
            raise Failed("\n".join([command.words, *(f"not printed: {line}" for line in lacking)]), ended)

    def chosen(self) -> Iterator[Command]:
        """The commands to run."""
        for command in commands():
            if not self.is_quick or UNPROVED in command.words:
                yield command
            elif command.words == GATE:
                yield from (Command(SMALL), Command(NEEDS))

    def steps(self, kit: Path, commit: str) -> None:
        """Goes through all steps.

        Raises Failed at the first one that fails."""
        names = packages()
        self.step(f"made a minimal Debian with {' and '.join(names)}", lambda: self.system.make(names))
        self.step(f"mounted the kit {kit}", lambda: self.system.mount(kit))
        self.step(f"cloned {commit} for {USER}", lambda: self.system.clone(commit))
        for command in self.chosen():
            user = "root" if command.words.startswith((GATE, NEEDS)) else USER
            self.step(f"{user} ran {command.words}", partial(self.run, command))


def told(fault: Failed) -> Iterator[str]:
    """The lines that say what failed, and what was missing."""
    yield f"failed: {fault.what}"
    if fault.ended:
        lines = fault.ended.printed[-LAST_LINES:]
        yield from (f"    {line}" for line in lines)
        yield f"status: {fault.ended.status}"
        lacking = (line.strip() for line in lines if LACKS.search(line) and LEFT_OUT not in line)
        yield from (f"missing: {line}" for line in lacking)


def arguments() -> argparse.Namespace:
    parser = argparse.ArgumentParser(
        prog=".ci/fresh-machine", description=__doc__, formatter_class=argparse.RawDescriptionHelpFormatter
    )
    parser.add_argument("--quick", action="store_true", help="prove nothing, and run no test")
    parser.add_argument("--keep", action="store_true", help="leave the folder")
    parser.add_argument("--apart", action="store_true", help=argparse.SUPPRESS)
    parser.add_argument("folder", type=Path, nargs="?", metavar="FOLDER", help="where the machine is made")
    return parser.parse_args()


def kit() -> Path:
    """The kit, if the trial can be made here.

    Raises Refused otherwise."""
    if os.geteuid():
        raise Refused("only root can make a machine in a folder")
    lacking = [it for it in NEEDED if not it.is_installed()]
    if lacking and not is_provided(lacking):
        raise Refused(f"{names_of(lacking)} missing: {how_to_install(lacking)}")
    texts = [it.words for it in commands()]
    if not packages() or GATE not in texts or not any(UNPROVED in it for it in texts):
        raise Refused(f"{PAGE} doesn't name the packages, or lacks {GATE} or a command with {UNPROVED}")
    try:
        return checker().parent.parent
    except Unreadable as fault:
        raise Refused(str(fault)) from None


def room(folder: Path | None) -> Path:
    """Makes the folder of the trial.

    Raises Refused if it is there already, or can't be made."""
    if folder is None:
        return Path(tempfile.mkdtemp(prefix="cdc6600-machine-"))
    try:
        folder.mkdir()
    except OSError as fault:
        raise Refused(f"{folder}: {fault.strerror}") from None
    return folder


def commit() -> str:
    """The last commit of this checkout. What isn't committed isn't tried, which is told."""
    git = ["git", "-c", f"safe.directory={ROOT}", "-C", str(ROOT)]
    if subprocess.run([*git, "status", "--porcelain"], capture_output=True, check=True).stdout:
        print("what isn't committed here isn't tried", flush=True)
    return subprocess.check_output([*git, "rev-parse", "--short=12", "HEAD"], text=True).strip()


def work(given: argparse.Namespace) -> int:
    """Makes the trial, and removes the machine afterwards; the status."""
    source, folder = kit(), room(given.folder)
    system = System(folder)
    trial = Trial(system, given.quick)
    try:
        trial.steps(source, commit())
    except Failed as fault:
        print(*told(fault), sep="\n", flush=True)
    finally:
        trial.failed += left_over(system, given.keep)
        print(f"{trial.passed} passed, {trial.failed} failed", flush=True)
    return 1 if trial.failed else 0


def left_over(system: System, is_kept: bool) -> int:
    """Unmounts and removes the machine, if it isn't kept: how much of that fails."""
    try:
        system.end()
        if not is_kept:
            system.remove()
    except Failed as fault:
        print(*told(fault), sep="\n", flush=True)
        return 1
    print(f"kept: {system.root}" if is_kept else f"removed: {system.room}", flush=True)
    return 0


def main() -> int:
    given = arguments()
    try:
        if given.apart:
            for number in (signal.SIGHUP, signal.SIGINT, signal.SIGTERM):
                signal.signal(number, end)
            return work(given)
        kit()
    except Refused as reason:
        print(f".ci/fresh-machine: {reason}", file=sys.stderr)
        return 2
    # The mounts of the trial are for its own processes alone.
    apart = ["unshare", "--mount", "--propagation", "private", "--", sys.executable, "-B", "-m", "cdc6600.trial"]
    os.execvp(apart[0], [*apart, "--apart", *sys.argv[1:]])


def end(number: int, _: object) -> None:
    """Ends the trial after a signal. Further signals don't disturb what is done at the end."""
    for it in (signal.SIGHUP, signal.SIGINT, signal.SIGTERM):
        signal.signal(it, signal.SIG_IGN)
    sys.exit(128 + number)

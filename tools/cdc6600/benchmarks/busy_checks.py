"""Runs checks again and again beside processes that count without end, to see that no check depends on how busy the
machine is.

    tools/bench busy-checks CHECK..                   20 rounds of these checks, side by side as in the gate
    tools/bench busy-checks --in-turn CHECK..         one check after the other
    tools/bench busy-checks --times 5 --busy 16 ..    5 rounds, beside 16 busy processes; 8 where nothing is said

It prints a line for each check that fails, with what the check said, and at the end how many runs there were and how
many of them failed. The status is 1 if any failed. CDC6600 may name the program to try.

If QUIET names a file in the environment, no round begins while that file exists.
"""

import argparse
import os
import subprocess
import sys
import time
from concurrent.futures import ThreadPoolExecutor
from contextlib import ExitStack, contextmanager
from pathlib import Path
from typing import Iterator

from cdc6600.gate.parts import NAMES, command
from cdc6600.shared.program import ROOT

TIMES, BUSY = 20, 8
# A busy process ends by itself if this script is killed.
COUNTING = """
import os
parent = os.getppid()
while os.getppid() == parent:
    for _ in range(1_000_000):
        pass
"""


def arguments() -> argparse.Namespace:
    parser = argparse.ArgumentParser(description=__doc__, formatter_class=argparse.RawDescriptionHelpFormatter)
    parser.add_argument("--times", metavar="N", type=int, default=TIMES, help=f"how many rounds, or {TIMES}")
    parser.add_argument("--busy", metavar="M", type=int, default=BUSY, help=f"how many busy processes, or {BUSY}")
    parser.add_argument("--in-turn", action="store_true", help="run the checks of a round one after the other")
    parser.add_argument("checks", metavar="CHECK", nargs="+",
                        help="the name of a check, as `tools/check --help` lists it")
    given = parser.parse_args()
    missing = [name for name in given.checks if name not in NAMES]
    if missing:
        parser.error(f"there is no check {', '.join(missing)}")
    return given


@contextmanager
def busy(many: int) -> Iterator[None]:
    with ExitStack() as processes:
        for _ in range(many):
            process = processes.enter_context(subprocess.Popen([sys.executable, "-c", COUNTING]))
            processes.callback(process.kill)
        yield


def is_silent(name: str) -> bool:
    """Whether a check finds nothing. What it says is printed where it doesn't."""
    begun = time.monotonic()
    ran = subprocess.run(command(name), cwd=ROOT, text=True, errors="replace", check=False, stdin=subprocess.DEVNULL,
                         stdout=subprocess.PIPE, stderr=subprocess.STDOUT)
    if ran.returncode:
        seconds = time.monotonic() - begun
        print(f"{name} fails with status {ran.returncode} after {seconds:.0f} s:\n{ran.stdout}", end="", flush=True)
    return ran.returncode == 0


def wait_for_quiet_to_end() -> None:
    """Waits while somebody wants the machine to be quiet."""
    while os.environ.get("QUIET") and Path(os.environ["QUIET"]).exists():
        time.sleep(1)


def failures_of_round(given: argparse.Namespace) -> int:
    """Runs each check once; how many fail."""
    wait_for_quiet_to_end()
    with busy(given.busy), ThreadPoolExecutor(1 if given.in_turn else len(given.checks)) as pool:
        return list(pool.map(is_silent, given.checks)).count(False)


def main() -> int:
    given = arguments()
    failed = sum(failures_of_round(given) for _ in range(given.times))
    print(f"{given.times * len(given.checks)} runs, {failed} failed")
    return 1 if failed else 0

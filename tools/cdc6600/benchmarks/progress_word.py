"""What the progress word costs an accepted issue.

    tools/bench progress-word [RUNS [PROCESSORS]]

`cdc6600 run` issues passes, which need no unit, so that nearly all of its time is that of accepted issues under the
lock; and so does a copy of the executable from which the addition to the word is taken out. The addition's result isn't
used, so both print the same.

There are RUNS pairs of runs of 10,000,000 instructions, 10 if nothing is said, on the named processors. Without a name
it is processor 0 alone: on several, where the threads come to lie makes more of a difference than the word.

It prints the time of an instruction with the word and without it, the shortest of the runs, and their ratio. The time
of a run of one instruction, which is mostly the deck's reading, is taken off. It needs `objdump`. CDC6600 may name the
program; otherwise it is the one that tools/build-program builds.
"""

import re
import subprocess
import sys
import tempfile
import time
from pathlib import Path
from typing import Iterator, Sequence

from cdc6600.limits import MOST_INSTRUCTIONS, MOST_WORDS
from cdc6600.shared.program import program_path

from .racing import RUNNING, Failed

# Nearly as many passes as fit into the largest memory, and a jump to the first: so nineteen jumps in a run.
WORDS = 130_000
DECK = "\n".join(
    [f"core {MOST_WORDS}", "at 40", "word 0", "word 00000100000000000000", "word 00375721000000000000", "at 100"]
    + ["code NO; NO; NO; NO"] * WORDS
    + ["code EQ B0,B0,0", "start 40", "end", ""]
)
# The function in which instructions are issued, and the instruction that does nothing.
ISSUING, NOTHING = "unit_workers::threaded_run::run_lanes", b"\x90"
BEGINS = re.compile(r"([0-9a-f]+) <(.*)> \(File Offset: (0x[0-9a-f]+)\):")
ADDS = re.compile(r"\s*([0-9a-f]+):\s((?:[0-9a-f]{2} )+)\s+lock incq (0x[0-9a-f]+)?\(")
# The other additions there are to counts of signals, which stand so far behind the lock.
FAR = 0x100


def additions(program: str) -> Iterator[tuple[int, bytes]]:
    """The additions to the word where instructions are issued: of each its offset in the file, and its code."""
    told = subprocess.run(["objdump", "-d", "-F", program], capture_output=True, text=True, check=True).stdout
    function = ""
    for line in told.splitlines():
        begins, adds = BEGINS.match(line), ADDS.match(line)
        if begins:
            function, shift = begins[2], int(begins[3], 16) - int(begins[1], 16)
        if adds and function.startswith(ISSUING) and 0 < int(adds[3] or "0", 16) < FAR:
            yield int(adds[1], 16) + shift, bytes.fromhex(adds[2])


def without_the_word(program: str, copy: Path) -> None:
    """Copies the executable, with nothing in the place of the one addition to the word."""
    found = list(additions(program))
    if len(found) != 1:
        raise Failed(f"{len(found)} additions found where one was expected")
    offset, code = found[0]
    text = bytearray(Path(program).read_bytes())
    if text[offset : offset + len(code)] != code:
        raise Failed("the addition isn't where objdump says")
    text[offset : offset + len(code)] = NOTHING * len(code)
    copy.write_bytes(text)
    copy.chmod(0o755)


def seconds(program: str | Path, budget: int, processors: str) -> tuple[float, str]:
    """How long a run takes, and what it prints."""
    begun = time.perf_counter()
    words = ["taskset", "-c", processors, str(program), "run", "--budget", str(budget)]
    ran = subprocess.run(words, input=DECK, capture_output=True, text=True, check=False)
    took = time.perf_counter() - begun
    if ran.returncode != RUNNING:
        raise Failed(f"status {ran.returncode}: {ran.stderr}{ran.stdout[:200]}")
    return took, ran.stdout


def race(programs: Sequence[str | Path], runs: int, processors: str) -> list[float]:
    """The nanoseconds of an instruction of each program, by the shortest of the runs."""
    best: dict[tuple[str | Path, int], float] = {}
    for _ in range(runs):
        texts = set[str]()
        for program in programs:
            for budget in (1, MOST_INSTRUCTIONS):
                took, text = seconds(program, budget, processors)
                best[program, budget] = min(took, best.get((program, budget), took))
            texts.add(text)
        if len(texts) != 1:
            raise Failed("the two print different dumps")
    return [(best[it, MOST_INSTRUCTIONS] - best[it, 1]) / MOST_INSTRUCTIONS * 1e9 for it in programs]


def main() -> int:
    words = sys.argv[1:]
    runs, processors = int(words[0]) if words else 10, words[1] if words[1:] else "0"
    program = program_path()
    try:
        with tempfile.TemporaryDirectory() as room:
            copy = Path(room) / "without"
            without_the_word(program, copy)
            one, other = race((program, copy), runs, processors)
    except Failed as fault:
        print(f"{sys.argv[0]}: {fault}", file=sys.stderr)
        return 1
    print(f"with the word: {one:.0f} ns an instruction")
    print(f"without it: {other:.0f} ns an instruction")
    print(f"ratio: {one / other:.3f}")
    return 0

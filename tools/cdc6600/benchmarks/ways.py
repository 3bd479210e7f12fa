"""Counts the functions that data passes through on its way, by what an unproved build executes under gdb.

    tools/bench ways [--list]

- word: a `word` line of a deck, from its bytes to the word in memory;
- lane: IX3 X1+X2 under `run`, from the turn of the loop that issues it until its reservation is on the unit's lane;
- stored: the same until its result is stored;
- reference: SA6 A0+5 under `run`, from its store event until the word is in memory;
- fault: a fault of a deck, from the function that finds it until it is written, with the callers that hand it on, in
  the crates that know of faults.

A function is one that the sources spell out: closures, derived implementations and what drops a value don't count. Nor
do these, which carry nothing of the instruction: the conversions between numbers (`get`, `from_bits`, ..), the wake-ups
between threads (crate `signals`) and the order of requests for exchanges (`sequential_run::requests`). Each function
counts once, however often it is entered.

It also counts, in the sources, the errors that are converted by hand, and the types and constants whose name stands in
several crates. With --list the functions and places are printed too.

It needs gdb, `nm` and `strip`, and builds the program without its proof, which takes a minute or two.
"""

import argparse
import os
import re
import subprocess
import tempfile
from collections import defaultdict
from pathlib import Path
from typing import Iterable, Iterator, Sequence

from cdc6600.crates.table import Table
from cdc6600.shared.program import ROOT

PROGRAM = ROOT / "crates/operator_main/out/operator_main.unproved"
DECK = """core 256
at 40
word 0
word 00000100000000000000
word 00000020000000000000
at 100
code {code}; PS
start 40
end
"""
# The line of the deck whose way is counted, from 1.
WORD_LINE = 4
# What isn't spelled out (`thiserror` derives the texts of two of the three types of a fault), or carries nothing of the
# instruction.
LEFT_OUT = re.compile(
    r"Destruct|::fn::|\+Fn|(?:PartialEq|Default|Clone|Debug|From)::|\+start|^signals::|^sequential_run::requests::"
    r"|(?:DeckFault|ProgramFault)Display::"
    r"|Below|word18::Word18::(?:get|widen|low_bits|from_bits)$|word60::Word60::(?:get|from_bits|low18)$"
)
# The functions at which a way begins and ends.
READ, LOOP, STEP, ISSUE, RELEASE, SEND, WORKER, STORED, STORE, WRITTEN, FAULT = (
    "line::read_line", "reading::read_deck_from", "issuing::step", "LockedMachine::issue", "Shared::release",
    "ends::Lane::send", "unit_worker::worker", "OpenGate::stored", "processor::Machine::store",
    "storage::Storage::store", "Draft::apply",
)
# The crates that know of faults.
OF_FAULTS = ("instructions", "deck", "deck_run", "operator_terms", "operator_main")
BY_HAND = (
    re.compile(r"Err\((\w+)\) => (?:return )?Err\((?:\w+\()?\1\)?\)"),
    re.compile(r"Err\((\w+)\) => \{\s*return Err\(\1\);\s*\}"),
    re.compile(r"if let Err\((\w+)\) = [^{]*\{\s*return Err\(\1\);"),
)
NAMED = re.compile(r"^\s*(?:pub(?:\(\w+\))? )?(?:enum|struct|trait|type|const) (\w+)", re.MULTILINE)


def crates() -> list[str]:
    return list(Table(ROOT).lines)


def entries(words: str, deck: str) -> list[list[str]]:
    """The entries of functions, with the number of the thread, and the callers of the function that finds the fault."""
    with tempfile.TemporaryDirectory() as folder:
        place = Path(folder)
        (place / "deck").write_text(deck, encoding="utf-8")
        # Its notes for debuggers make some versions of gdb fail; the names of functions are enough.
        subprocess.run(["strip", "--strip-debug", "-o", str(place / "program"), str(PROGRAM)], check=True)
        environment = dict(
            os.environ, PROGRAM=str(place / "program"), WORDS=words, INPUT=str(place / "deck"),
            ENTRIES=str(place / "entries"), CRATES=" ".join(crates()), FAULT=FAULT,
        )
        script = str(Path(__file__).with_name("entries.py"))
        command = ["gdb", "-q", "-batch", "-x", script, "--args", str(place / "program")]
        subprocess.run(command, env=environment, check=True, stdout=subprocess.DEVNULL, stderr=subprocess.DEVNULL)
        return [line.split(" ", 1) for line in (place / "entries").read_text(encoding="utf-8").splitlines()]


def spelled(names: Iterable[str]) -> list[str]:
    """Those of the functions that count, each once, in the order in which they were first entered."""
    return list(dict.fromkeys(name for name in names if not LEFT_OUT.search(name)))


def first(run: Sequence[Sequence[str]], name: str, start: int = 0) -> int:
    """The index of the first entry of a function from an index on."""
    return next(index for index in range(start, len(run)) if run[index][1].endswith(name))


def word() -> list[str]:
    """The way of a `word` line: between two readings of a line, and the loop round them."""
    run = entries("run", DECK.format(code="NO"))
    reads = [index for index, (_, name) in enumerate(run) if name.endswith(READ)]
    loop = run[first(run, LOOP)]
    return spelled(name for _, name in [loop, *run[reads[WORD_LINE - 1]:reads[WORD_LINE]]])


def lane(run: Sequence[Sequence[str]]) -> list[str]:
    """The way of an issued instruction to its lane, in the thread that issues: one turn of the loop that issues. The
    issue after it, which the budget refuses while the lock is held, doesn't count."""
    start = first(run, STEP)
    thread = run[start][0]
    again = first(run, ISSUE, first(run, ISSUE, start) + 1)
    released = first(run, RELEASE, again)
    end = first(run, SEND, released)
    return spelled(name for it, name in [*run[start:again], *run[released:end + 1]] if it == thread)


def stored(run: Sequence[Sequence[str]]) -> list[str]:
    """The way of an instruction from its issue until its result is stored: to its lane, and then in its unit."""
    end = first(run, STORED)
    unit = run[end][0]
    start = next(i for i in range(end) if run[i][0] == unit and run[i][1].endswith(WORKER))
    return spelled([*lane(run), *(name for thread, name in run[start:end] if thread == unit)])


def reference(run: Sequence[Sequence[str]]) -> list[str]:
    """The way of a reference from its store event until its word is in memory."""
    start = first(run, STORE)
    end = first(run, WRITTEN, start)
    return spelled(name for thread, name in run[start:end + 1] if thread == run[start][0])


def fault() -> list[str]:
    """The way of a fault: the function that finds it, its callers, and what is entered afterwards. What finds the
    column of the fault and what writes bytes isn't on this way."""
    run = entries("run", DECK.format(code="NO").replace("word 0\n", "word 8\n"))
    at = max(index for index, (kind, _) in enumerate(run) if kind == "callers")
    waiting = [name for name in run[at][1].split() if name.split("::")[0] in crates()]
    waiting = waiting[:next(i for i, name in enumerate(waiting) if name.endswith("program::program")) + 1]
    names = spelled([run[at - 1][1], *waiting, *(name for _, name in run[at + 1:])])
    return [name for name in names if name.split("::")[0] in OF_FAULTS]


def sources() -> Iterator[tuple[str, Path, str]]:
    """The sources of the crates that aren't tests, with their crate."""
    for crate in crates():
        if not crate.endswith("_tests"):
            for path in sorted((ROOT / "crates" / crate / "src").rglob("*.rt")):
                if not path.stem.endswith("_tests"):
                    yield crate, path, path.read_text(encoding="utf-8")


def by_hand() -> list[str]:
    """The places where an error is taken out only to be put in again."""
    return [
        f"{path.relative_to(ROOT)}:{text.count(chr(10), 0, found.start()) + 1}"
        for _, path, text in sources() for pattern in BY_HAND for found in pattern.finditer(text)
    ]


def named_twice() -> list[str]:
    """The types and constants whose name stands in several crates."""
    places = defaultdict[str, set[str]](set)
    for crate, _, text in sources():
        for name in NAMED.findall(text):
            places[name].add(crate)
    return [f"{name}: {', '.join(sorted(found))}" for name, found in sorted(places.items()) if len(found) > 1]


def main() -> int:
    parser = argparse.ArgumentParser(description=__doc__, formatter_class=argparse.RawDescriptionHelpFormatter)
    parser.add_argument("--list", action="store_true", help="print the functions and places too")
    is_listed = parser.parse_args().list
    subprocess.run([f"{ROOT}/tools/build-program", "--unproved"], check=True)
    addition = entries("run --budget 1", DECK.format(code="IX3 X1+X2"))
    store = entries("run --budget 1", DECK.format(code="SA6 A0+5"))
    counts = {
        "word": word(), "lane": lane(addition), "stored": stored(addition), "reference": reference(store),
        "fault": fault(), "errors by hand": by_hand(), "names in several crates": named_twice(),
    }
    for name, found in counts.items():
        print(f"{name}: {len(found)}")
        for line in found if is_listed else ():
            print(f"    {line}")
    return 0

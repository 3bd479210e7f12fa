"""Tries the tools that compare an emulator with the program: tools/compare, tools/conformance and tools/random-deck.

- The plain interpreter of bench/replaying is an emulator that has to agree on all decks of decks/ and on 100 drawn
  ones, after the whole log and after eight beginnings of it.
- A copy of it has the faults of planted_faults.txt, of which it shows one at a time. With each it has to differ on some
  deck. On the first ten decks that show the fault, the tools have to name a step whose meaning the fault touches.
- The copy also has a fault for each row of the instruction table and for each of its edges. tools/conformance without
  options has to find each under the name of its row, on a stored deck that shows the edge. Each edge has to be shown by
  a stored deck.
- Faults that later steps cover up have to be found on the way, and a slow emulator mustn't be called wrong.
- Emulators that hang, die, print nothing or something else have to give one line and their status.
- A deck is saved over no other file, and through no link.
- The drawn decks have to be the same ones as ever, end before their budget, and have each instruction carried out.

tests/test_pages.py runs the commands of docs/use/emulators.md.

Run it after a change of what is computed or printed, of these tools, or of the plain interpreter.
"""

from __future__ import annotations

import hashlib
import json
import os
import re
import signal
import subprocess
from dataclasses import dataclass
from functools import cache
from itertools import islice
from pathlib import Path
from typing import Any, Callable, Iterator
from xml.etree import ElementTree

import planting
import pytest
from planting import AT_EDGES, NUMBERS, PLANTED, STOP, AtEdge, Planted
from running import Ended, Runner, called, name_of

from cdc6600.comparing.coverage import Coverage, shown_by
from cdc6600.comparing.edges import is_branch
from cdc6600.comparing.emulator import Emulator
from cdc6600.comparing.finding import Comparison, Replayed
from cdc6600.comparing.proved import Proved
from cdc6600.comparing.reports import Report
from cdc6600.comparing.steps import Steps, points_every, usual_points
from cdc6600.comparing.suites import Case, drawn_cases, stored_cases
from cdc6600.shared.instructions import ROWS
from cdc6600.shared.program import ROOT
from cdc6600.shared.waiting import Missing, wait_until

COMPARE, CONFORMANCE = "tools/compare", "tools/conformance"
DECK, ENDLESS = "decks/two-adds.deck", "decks/run/endless.deck"
STORED, DRAWN = stored_cases(), drawn_cases(range(1, 101))
CASES: list[Case] = [*DRAWN, *STORED]
BEGINNINGS, MOST_STEPS, MOST_REPORTS = 8, 10_000, 10
# The numbers of steps after which the dumps of a deck are compared: at its end, and on the way too.
POINTS: tuple[Callable[[int], list[int]], ...] = (points_every, usual_points)
EXACT, QUICK = ("-O",), ("-C", "opt-level=1")
# The seconds that an emulator may take: one that hangs has few, or more if other work held it up before it hung.
HANGING, ENDING = (2, 8, 32, 128), 600
# The minutes that a tool may take for an emulator on many decks.
MINUTES = 30
# The additions that make a copy of the interpreter tell the parcel of each instruction that is carried out and doesn't
# halt, and whether a branch is taken: each after a line.
TELLING = (
    ("let next = (self.p + 1) & ONES18;", 'eprintln!("{parcel:05o}");'),
    ("pub fn jump_if(&mut self, taken: bool, to: u32) {", 'eprintln!("{taken}");'),
)
# The sum of the decks of the first ten seeds: the same on any machine, by any version of Python. A change of what is
# drawn changes it.
DECKS_SUM = "383ba73addb5b762"
# The planted fault that one deck alone shows.
LAST_WORD = "P goes on in 17 bits"
# Decks whose names begin so are tried before others, since they show most edges.
EDGES = "decks/run/edge-"
AGREE = Ended(0, f"{DECK}: the dumps agree after all 7 steps of the log\n")
FOREVER = 9999
HANGS = f"sleep {FOREVER}"
# A script that is right up to a step of the log E40 I6, and does something else from there on.
FROM_STEP_5 = 'case $1 in *I[456]) {};; *) exec PLAIN "$1";; esac'
BOOTED = "with the log none: the machine as it is booted"
STEP_5 = "with the log E40 I4: step 5, instruction 4: IX4 X2-X1, at P 000001 PARCEL 1, memory 000101"
# Emulators that print no dump, as scripts of the shell, and what tools/compare tells after the name of each. PLAIN is
# the plain interpreter, and LIMIT the seconds that it may take.
BAD = (
    (HANGS, f"doesn't end in LIMIT seconds, {BOOTED}"),
    (f"{HANGS} & echo begun; wait", f"doesn't end in LIMIT seconds, {BOOTED}"),
    (f"exec >&- 2>&-; {HANGS}", f"doesn't end in LIMIT seconds, {BOOTED}"),
    (FROM_STEP_5.format(HANGS), f"doesn't end in LIMIT seconds, {STEP_5}"),
    ("exit 0", f"prints nothing, {BOOTED}"),
    (FROM_STEP_5.format("exit 5"), f"prints nothing, {STEP_5}"),
    ("echo hello", f"prints no dump: line 1 is `hello`, where a line of P is to be, {BOOTED}"),
    ("yes", f"prints more than 17368 bytes, which is no dump, {BOOTED}"),
    ('PLAIN "$1" | sed 6q', f"prints no whole dump: it ends before X1, {BOOTED}"),
    ('PLAIN "$1"; echo more', f"prints no dump: `LOG none` comes after its last word, {BOOTED}"),
    (FROM_STEP_5.format('PLAIN "$1" | sed s/X4.*/X4/'),
     f"prints no dump: line 10 is `X4`, where a line of X4 is to be, {STEP_5}"),
    ("kill -SEGV $$", f"is ended by SIGSEGV, {BOOTED}"),
    (FROM_STEP_5.format("kill -KILL $$"), f"is ended by SIGKILL, {STEP_5}"),
    ("echo begun; echo it broke >&2; exit 7", f"ends with status 7: it broke, {BOOTED}"),
    (FROM_STEP_5.format("exit 1"), f"ends with status 1, {STEP_5}"),
)
# What is told of a file that a tool hasn't written.
KEPT = "it is there already, and isn't written over"
# Calls, what is told after the name of the tool, and the program that CDC6600 names if it is another one.
INPUTS = (
    ((COMPARE, "nosuch", DECK), "the command nosuch: No such file or directory", ""),
    ((COMPARE, "", DECK), "the command has no word", ""),
    ((COMPARE, "cat '", DECK), "the command cat ': No closing quotation", ""),
    ((COMPARE, "./decks", DECK), "the command ./decks: Permission denied", ""),
    ((COMPARE, "cat", "decks/nosuch"), "decks/nosuch: No such file or directory", ""),
    ((COMPARE, "cat", "decks"), "decks: Is a directory", ""),
    ((COMPARE, "cat", "decks/run/refused.deck"), "decks/run/refused.deck: E20 line 4: range", ""),
    ((COMPARE, "cat", DECK, "I0"), "the log I0: bad log", ""),
    ((COMPARE, "cat", DECK, "E777"), "the log E777: E19 package range", ""),
    ((COMPARE, "--save", "decks", "cat", DECK), f"decks: {KEPT}", ""),
    ((COMPARE, "cat", DECK), "nosuch: No such file or directory", "nosuch"),
    ((COMPARE, "cat", DECK), "/bin/true run: it prints no log", "/bin/true"),
    ((COMPARE, "cat", DECK), "/bin/echo list: it prints no listing", "/bin/echo"),
    ((COMPARE, "cat", "HANDLES"), "/bin/true list: it accepts HANDLES, which is no deck", "/bin/true"),
    ((COMPARE, "cat", "README.md"), "README.md: E20 line 1: first", ""),
    ((CONFORMANCE, "--junit", "decks", "cat"), "decks: Is a directory", ""),
    ((CONFORMANCE, "nosuch"), "the command nosuch: No such file or directory", ""),
    ((CONFORMANCE, "cat"), "nosuch: No such file or directory", "nosuch"),
)


@dataclass(frozen=True, eq=False)
class Trials:
    """The program, asked for the replays of decks when a test needs them, and a folder for files."""

    proved: Proved
    folder: Path

    @cache
    def replayed(self, case: Case) -> Replayed:
        """A deck with its replay."""
        return case.replayed(self.proved, self.folder)

    @cache
    def shown(self, case: Case) -> set[str | tuple[str, str]]:
        """The rows and edges that a deck shows."""
        return shown_by(case, self.proved)

    def showing(self, fault: AtEdge) -> Iterator[Case]:
        """The stored decks that show the edge of a fault, or its row: those of edges first."""
        decks = sorted(STORED, key=lambda case: (not case.name.startswith(EDGES), len(Steps(case.log))))
        return (it for it in decks if ((fault.code, fault.edge) if fault.edge else fault.code) in self.shown(it))

    def report(self, case: Case, command: str, points: Callable[[int], list[int]]) -> Report | None:
        """What is found of an emulator on a deck whose dumps are compared after these numbers of steps."""
        comparison = Comparison(self.replayed(case), Emulator(command, ENDING, 0))
        found = comparison.find(points(len(comparison.steps)))
        return Report(comparison, found) if found else None

    def built(self, name: str, text: str, options: tuple[str, ...]) -> str:
        """Builds a source; the executable."""
        source, executable = self.folder / f"{name}.rs", self.folder / name
        source.write_text(text, encoding="utf-8")
        words = ["rustc", "--edition", "2021", "--cap-lints", "allow", *options, "-o", str(executable), str(source)]
        assert called(*words) == Ended(0)
        return str(executable)


@pytest.fixture(scope="session")
def trials(program: Runner, tmp_path_factory: pytest.TempPathFactory) -> Trials:
    return Trials(Proved(), tmp_path_factory.mktemp("trials"))


@pytest.fixture(scope="session")
def plain(trials: Trials) -> str:
    """The plain interpreter."""
    return trials.built("plain", planting.PLAIN, EXACT)


@pytest.fixture(scope="session")
def faulty(trials: Trials) -> Callable[[Planted | AtEdge], str]:
    """The command of the interpreter's copy that shows a fault."""
    built = trials.built("faulty", planting.faulty_source(), QUICK)
    return lambda fault: f"{built} {NUMBERS[fault]}"


def script_of(file: Path, commands: str) -> Path:
    """Writes a script of the shell."""
    file.write_text(f"#!/bin/sh\n{commands}\n", encoding="utf-8")
    file.chmod(0o755)
    return file


def judged(*words: str | Path) -> Any:
    """What tools/conformance tells as JSON of an emulator and some decks, with its status among it."""
    came = called(CONFORMANCE, "--json", *words, minutes=MINUTES)
    told = json.loads(came.printed)
    assert (came.told, came.status) == ("", told["status"])
    return told


@pytest.mark.parametrize("case", CASES, ids=name_of)
def test_plain_interpreter(trials: Trials, plain: str, case: Case) -> None:
    report = trials.report(case, plain, lambda whole: points_every(whole, max(1, whole // BEGINNINGS)))
    assert not report, report.line


@pytest.mark.parametrize("fault", [it for it in PLANTED if not it.deck], ids=name_of)
def test_planted(trials: Trials, faulty: Callable[[Planted], str], fault: Planted) -> None:
    reports = (trials.report(case, faulty(fault), points_every) for case in CASES)
    found = [*islice(filter(None, reports), MOST_REPORTS)]
    assert found, "no deck shows it"
    assert [f"{it.name}: {it.line}" for it in found if not re.match(fault.steps, it.what)] == []


@pytest.mark.parametrize("fault", [it for it in PLANTED if it.deck], ids=name_of)
def test_covered_up(trials: Trials, faulty: Callable[[Planted], str], fault: Planted) -> None:
    case = next(it for it in CASES if it.name == fault.deck)
    assert not trials.report(case, faulty(fault), points_every)
    report = trials.report(case, faulty(fault), usual_points)
    assert report and re.match(fault.steps, report.what)


@pytest.mark.parametrize("fault", AT_EDGES, ids=name_of)
def test_at_edge(trials: Trials, faulty: Callable[[AtEdge], str], fault: AtEdge) -> None:
    """The dumps after the decks' whole logs are compared first: if they differ, the tool finds the deck. Which of its
    points comes first makes no difference to the name, since nothing but this row is wrong."""
    decks = ((case, points) for points in POINTS for case in trials.showing(fault))
    report = next(filter(None, (trials.report(case, faulty(fault), points) for case, points in decks)), None)
    assert report, "no stored deck shows it"
    assert report.kind == ROWS[fault.code].text, f"{report.name}: {report.line}"


def test_each_edge_is_shown(trials: Trials) -> None:
    assert Coverage(map(trials.shown, STORED)).missing == []


def test_conformance_without_options(faulty: Callable[[Planted], str]) -> None:
    """It finds a fault whose only trace is in a memory of all words, and nothing else."""
    told = judged("--seconds", str(ENDING), faulty(next(it for it in PLANTED if it.name == LAST_WORD)))
    found = {(it["kind"], name) for it in told["groups"] for name in it["decks"]}
    assert found == {("RJ K", "decks/run/edge-top.deck")}


@pytest.mark.parametrize("seconds, more, verdict", [(2 * HANGING[0], ENDING, "same"), (FOREVER, 1, "too slow")])
def test_slow(plain: str, tmp_path: Path, seconds: int, more: int, verdict: str) -> None:
    """One emulator takes longer than the seconds of a call for a long log, which it may. Another one doesn't end."""
    slow = script_of(tmp_path / "slow", f'case $1 in *I1000000) sleep {seconds};; esac; exec {plain} "$1"')
    words = ("--seconds", str(HANGING[0]), "--more", str(more), "--random", "0", "--every", "999999")
    told = judged(*words, "--junit", tmp_path / "junit.xml", slow)
    assert (told["differ"], [it["verdict"] for it in told["decks"] if it["name"] == ENDLESS]) == (0, [verdict])
    assert ElementTree.parse(tmp_path / "junit.xml").getroot().get("errors") == str(told["slow"])


@pytest.mark.parametrize("commands, told", BAD)
def test_no_dump(plain: str, tmp_path: Path, commands: str, told: str) -> None:
    """An emulator that is to hang at a later step may be held up at an earlier one, which looks the same: then it has
    the next limit."""
    script = script_of(tmp_path / "bad", commands.replace("PLAIN", plain))
    for limit in HANGING if "LIMIT" in told else (ENDING,):
        came = called(COMPARE, "--seconds", str(limit), script, DECK)
        wanted = Ended(1, told=f"{COMPARE}: {DECK}: {script} {told}\n".replace("LIMIT", str(limit)))
        if came == wanted:
            break
    assert came == wanted


@pytest.mark.parametrize("commands, told", [row for row in BAD if row[1].endswith(BOOTED)])
def test_no_dump_of_booted_machine(plain: str, tmp_path: Path, commands: str, told: str) -> None:
    script = script_of(tmp_path / "bad", commands.replace("PLAIN", plain))
    seconds = HANGING[0] if "LIMIT" in told else ENDING
    came = called(CONFORMANCE, "--seconds", str(seconds), "--random", "0", script, minutes=MINUTES)
    assert (came.status, came.printed, came.told.count("\n"), str(script) in came.told) == (1, "", 1, True)


@pytest.mark.parametrize("words, told, named", INPUTS)
def test_bad_input(program: Runner, words: tuple[str, ...], told: str, named: str) -> None:
    came = called(*words, env={**os.environ, "CDC6600": named or program.path})
    assert came == Ended(2, told=f"{words[0]}: {told}\n")


def test_save(plain: str, tmp_path: Path) -> None:
    saved, moved = tmp_path / "saved", tmp_path / "moved"
    words, refused = (COMPARE, "--save", saved, plain, DECK), Ended(2, told=f"{COMPARE}: {saved}: {KEPT}\n")
    assert called(*words) == AGREE
    assert called(*words) == AGREE, "over the same deck"
    saved.rename(moved)
    saved.symlink_to(moved)
    assert called(*words) == refused, "over a link to it"
    saved.unlink()
    saved.write_bytes(b"mine")
    assert called(*words) == refused, "over another file"
    assert saved.read_bytes() == b"mine"


def test_compare(program: Runner, plain: str) -> None:
    for command in (plain, f"'{program.path}' replay"):
        assert called(COMPARE, "--seconds", str(ENDING), command, DECK) == AGREE


@pytest.mark.parametrize("options", [(), ("--jobs", "1")], ids=str)
def test_conformance(plain: str, options: tuple[str, ...]) -> None:
    came = called(CONFORMANCE, "--seconds", str(ENDING), *options, "--random", "1", plain, minutes=MINUTES)
    assert came == Ended(0, f"{len(STORED)} decks of decks/ and 1 drawn ones: none differ\n")


@pytest.mark.parametrize("jobs", [1, 3])
def test_decks_side_by_side(plain: str, tmp_path: Path, jobs: int) -> None:
    # A call notes how many calls there are while it runs.
    noted = 'cd "$1" || exit; mkdir $$; sleep 0.05; ls -d [0-9]* | wc -l >>calls; rmdir $$'
    script, folder = script_of(tmp_path / "counted", f'{noted}; exec {plain} "$2"'), tmp_path / "calls"
    folder.mkdir()
    words = ("--jobs", str(jobs), "--every", "100000", "--random", "0", f"{script} {folder}")
    called(CONFORMANCE, *words, minutes=MINUTES)
    most = max(map(int, (folder / "calls").read_text(encoding="ascii").split()))
    assert min(2, jobs) <= most <= jobs


def is_sleeping(process: int) -> bool:
    """Whether a process is a sleep that hasn't ended."""
    try:
        return Path(f"/proc/{process}/cmdline").read_bytes().startswith(b"sleep")
    except OSError:
        return False


@pytest.mark.parametrize("number", [signal.SIGINT, signal.SIGTERM])
def test_interrupt(program: Runner, tmp_path: Path, number: signal.Signals) -> None:
    """The tool ends quietly, and what the emulator started was killed by then, but may end a little later."""
    begun = tmp_path / "begun"
    script = script_of(tmp_path / "sleeping", f"{HANGS} & echo $! > {begun}.new; mv {begun}.new {begun}; wait")
    words, pipe = [str(ROOT / CONFORMANCE), "--seconds", str(FOREVER), str(script)], subprocess.PIPE
    with subprocess.Popen(words, stdout=pipe, stderr=pipe) as tool:
        try:
            wait_until(lambda: begun.exists() or tool.poll() is not None, f"{script} to begin")
            tool.send_signal(number)
            wait_until(lambda: tool.poll() is not None, f"the end of {CONFORMANCE} by {number}")
        finally:
            tool.kill()
        assert Ended.of(tool.returncode, *tool.communicate()) == Ended(128 + number)
    process = int(begun.read_text(encoding="ascii"))
    try:
        wait_until(lambda: not is_sleeping(process), f"the end of what the emulator started, after {number}")
    except Missing:
        os.kill(process, signal.SIGKILL)
        raise


@pytest.mark.parametrize("case", DRAWN, ids=name_of)
def test_drawn_deck_ends(trials: Trials, case: Case) -> None:
    deck = trials.replayed(case)
    assert (deck.whole.state["HALT"], deck.whole.state["FAULT"]) != ("running", "none")
    assert len(deck.steps) <= MOST_STEPS


def test_drawn_decks_are_the_same_ones() -> None:
    printed = "".join(called("tools/random-deck", str(seed)).printed for seed in range(10))
    assert hashlib.sha256(printed.encode()).hexdigest()[:16] == DECKS_SUM


def test_drawn_decks_carry_out_each_instruction(trials: Trials) -> None:
    """Each branch with and without a jump."""
    text, found = planting.PLAIN, set[tuple[str, str]]()
    for line, told in TELLING:
        text = planting.replaced_once(text, line, line + told)
    telling = trials.built("telling", text, QUICK)
    for deck in map(trials.replayed, DRAWN):
        ran = called(telling, deck.steps.log, given=deck.given.text)
        assert ran.status == 0
        found.update(re.findall(r"^(0[13]\d|\d\d)\d+\n(true|false)?", ran.told, re.MULTILINE))
    taken = {code: ("true", "false") if is_branch(row) else ("",) for code, row in ROWS.items() if code != STOP}
    assert {(code, it) for code in taken for it in taken[code]} - found == set()

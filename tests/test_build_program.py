"""Tests tools/build-program on a small workspace of its own, in a minute. Over a kit that proves nothing, tests/kit, it
also tests ./cdc6600, tools/build-library, and the tools in a checkout where only the unproved program is built.

Run it after a change of one of them, of `tools/cdc6600/shared/program.py`, of `tools/cdc6600/building/crate-seconds`,
or of the kit.
"""

from __future__ import annotations

import random
import shutil
import signal
import subprocess
from pathlib import Path
from typing import Any

import pytest
from running import called
from small_checkout import Checkout, write_all, write_workspace

from cdc6600.building import processes
from cdc6600.building.building import Plan, ended
from cdc6600.building.forecast import FIRST, Forecast
from cdc6600.crates.table import Table
from cdc6600.shared.program import ROOT
from cdc6600.shared.waiting import finish, wait_until

ALL_OF_LIBRARY, OWN_OF_LIBRARY = ["beside", "embedding", "lower", "upper"], ["beside", "embedding"]
NAMES = ["lower", "upper", "operator_main"]


# ---- what is built, and what is said ----


def builds(root: Path) -> tuple[int, list[str], Path]:
    """Builds the program of a workspace: the status, the lines on standard error, and where the program should be."""
    made = root / "crates/tiny_main/out/tiny_main"
    ran = called("tools/build-program", "--root", root, "--program", "tiny_main", made, minutes=60)
    assert ran.printed == ""
    return ran.status, ran.told.split("\n"), made


def test_proved_program_runs(tmp_path: Path) -> None:
    write_workspace(tmp_path, "tiny_main")
    status, lines, made = builds(tmp_path)
    assert status == 0 and lines[0].startswith("cdc6600: lower is proved, 1 of 3 crates; about ")
    assert lines[2] == "cdc6600: tiny_main is proved, 3 of 3 crates"
    assert called(made).status == 0


def test_unproved_crate_is_told(tmp_path: Path) -> None:
    write_workspace(tmp_path, "tiny_main")
    file = tmp_path / "crates/upper/src/lib.rt"
    file.write_text(file.read_text(encoding="utf-8").replace("+ lower::one()", "+ 2"), encoding="utf-8")
    status, lines, made = builds(tmp_path)
    assert status == 1 and "cdc6600: upper isn't proved" in lines and not made.exists()
    assert any(line.startswith("fn upper::two: no proof") for line in lines)


def test_signal_while_a_command_begins(tmp_path: Path, monkeypatch: pytest.MonkeyPatch) -> None:
    """The command is ended though the tool doesn't know of it yet when the signal comes."""
    begun, begin = list[subprocess.Popen[bytes]](), subprocess.Popen

    def begin_with_a_signal(*words: Any, **how: Any) -> subprocess.Popen[bytes]:
        begun.append(begin(*words, **how))
        signal.raise_signal(signal.SIGTERM)
        return begun[0]

    def work() -> int:
        return processes.run(["sleep", "infinity"], tmp_path).status

    monkeypatch.setattr(processes, "RUNNING", processes.Running())
    monkeypatch.setattr(subprocess, "Popen", begin_with_a_signal)
    before = {number: signal.getsignal(number) for number in processes.ENDING}
    with pytest.raises(SystemExit):
        ended(work)
    for number, handler in before.items():
        signal.signal(number, handler)
    signal.set_wakeup_fd(-1)
    assert [it.wait() for it in begun] == [-signal.SIGTERM]


# ---- when ./cdc6600 builds the program, in a copy of the repository with three crates of nothing ----


def test_content_counts(checkout: Checkout) -> None:
    proved, kept = ("proved run\n", NAMES), ("proved run\n", list[str]())
    assert checkout.answer("run") == proved
    assert checkout.answer("run") == kept
    for file in checkout.root.glob("crates/*/src/*"):
        file.touch()
    assert checkout.answer("run") == kept
    copy = shutil.copytree(checkout.root, checkout.room / "copy")
    assert checkout.answer("run", root=copy) == kept
    assert checkout.answer("run", root=copy, has_kit=False) == kept
    checkout.change("lower", "")
    assert checkout.answer("run") == proved


def test_another_kit_is_told(checkout: Checkout) -> None:
    said = "cdc6600: the program is built again because the kit is `another kit` now and was `a kit of a test`\n"
    for option in (list[str](), ["--unproved"]):
        write_all(checkout.room, {"kit/KIT-ID": "a kit of a test\n"})
        checkout.answer(*option, "run")
        assert "built again" not in checkout.told
        write_all(checkout.room, {"kit/KIT-ID": "another kit\n"})
        assert checkout.answer(*option, "run")[1] == (["unproved"] if option else NAMES)
        assert said in checkout.told
    checkout.change("lower", "")
    write_all(checkout.room, {"kit/KIT-ID": "a third kit\n"})
    assert checkout.answer("run")[1] == NAMES and "built again" not in checkout.told


def test_kit_that_is_missing_is_told(checkout: Checkout) -> None:
    checkout.answer("run")
    checkout.change("lower", "")
    with checkout.start("run", has_kit=False) as process:
        told = finish(process, "./cdc6600")[1]
    assert process.returncode == 126 and "the kit isn't installed" in told and "built again" not in told


def test_library_takes_what_the_program_left(checkout: Checkout) -> None:
    checkout.answer("run")
    assert checkout.build_library() == OWN_OF_LIBRARY
    assert "cdc6600: embedding is proved, 4 of 4 crates" in checkout.told
    assert checkout.build_library() == []
    checkout.change("upper", "")
    assert sorted(checkout.build_library()) == ALL_OF_LIBRARY
    checkout.change("upper", "--")
    checkout.answer("run")
    assert checkout.build_library() == OWN_OF_LIBRARY


def test_library_without_the_program(checkout: Checkout) -> None:
    assert sorted(checkout.build_library()) == ALL_OF_LIBRARY


def test_help_builds_nothing(checkout: Checkout) -> None:
    for option, name in (("--help", "help"), ("-h", "help"), ("--version", "version"), ("-V", "version")):
        assert checkout.answer(option) == ((ROOT / f"docs/{name}.txt").read_text(encoding="utf-8"), [])
    checkout.answer("run")
    assert checkout.answer("--help") == ("proved --help\n", [])


def test_two_calls_build_once(checkout: Checkout) -> None:
    checkout.go.unlink()
    told, line = checkout.room / "told", f"another call builds {checkout.built}; "
    with told.open("w", encoding="utf-8") as stream, checkout.start("run") as first:
        wait_until(checkout.noted, "the first call to build")
        with checkout.start("run", stderr=stream) as second:
            # Two calls that both build have noted a crate each.
            wait_until(lambda: line in told.read_text(encoding="utf-8") or checkout.noted()[1:], "the second call")
            checkout.go.touch()
            ends = [finish(it, "./cdc6600")[0] for it in (first, second)]
    assert line in told.read_text(encoding="utf-8")
    assert (ends, checkout.noted()) == (["proved run\n"] * 2, NAMES)


def test_unproved_is_kept(checkout: Checkout) -> None:
    for built in (["unproved"], []):
        assert checkout.answer("--unproved", "run") == ("unproved run\n", built)
        assert "cdc6600: UNPROVED: " in checkout.told
    assert not checkout.built.exists()
    assert checkout.answer("run") == ("proved run\n", NAMES)


def test_tools_take_unproved(checkout: Checkout) -> None:
    checkout.answer("--unproved", "run")
    deck = str(ROOT / "decks/two-adds.deck")
    for name, *words in (("schedule", deck), ("trace", deck), ("run-jobs", str(checkout.room / "jobs"), deck)):
        with checkout.start(*words, command=f"tools/{name}") as process:
            told = finish(process, name)[1]
        # The program of this test is none, so the tool comes to no result.
        assert told.count("UNPROVED: ") == 1, told
        assert checkout.noted() == ["unproved"], name


# ---- what is said of the time left, in buildings of this repository that go otherwise than was foreseen ----


def estimates(seed: int, slower: float = 1) -> list[tuple[float, float]]:
    """The minutes that are said at each crate of such a building, with those that are left. From the middle on the
    machine may be slower."""
    drawn, plan = random.Random(seed), Plan(Table(ROOT), "operator_main")
    pace = drawn.uniform(0.5, 4)
    work = {name: pace * drawn.uniform(0.8, 1.25) * plan.work[name] for name in plan.crates}
    forecast, times = Forecast(plan, 4, 6), Forecast(plan, 4, 6).go_through(work)
    middle = max(ended for _, ended in times.values()) / 2
    begun_at, ended_at = (
        {it: pair[end] + (slower - 1) * max(pair[end] - middle, 0) for it, pair in times.items()} for end in (0, 1)
    )
    begins = sorted((begun, 0, name) for name, begun in begun_at.items())
    ends = sorted((ended, -1, name) for name, ended in ended_at.items())
    proved: set[str] = set()
    found = list[tuple[float, float]]()
    for now, kind, name in sorted(begins + ends):
        if kind == 0:
            forecast.begin(name, now)
        else:
            proved.add(name)
            found.append((forecast.minutes_left(name, proved, now), (ends[-1][0] - now) / 60))
    return found


@pytest.mark.parametrize("seed", range(8))
def test_estimates_hardly_rise(seed: int) -> None:
    shown = [minutes for minutes, _ in estimates(seed, slower=6)]
    assert [it for it in zip(shown[FIRST - 1:], shown[FIRST:]) if it[1] > 1.1 * it[0]] == []


@pytest.mark.parametrize("seed", range(8))
def test_estimates_are_right(seed: int) -> None:
    assert [it for it in estimates(seed)[FIRST:] if abs(it[0] - it[1]) > 1 + 0.4 * it[1]] == []

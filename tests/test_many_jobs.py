"""Runs the commands of docs/use/tools.md on copies of all decks of decks/run, in a folder of its own, and compares the
results of each with the files beside it.

- The first command: one of the decks is refused, and one more is killed in the middle of its dump. This one, whose own
  arguments have `--sequential`, may have no dump then. The same command again has to run that deck alone.
- The command with `--sequential`, whose dumps have to be those of decks/run.
- Edited decks and arguments are run again, and no others. Decks of one name are refused, in one call and in two. Two
  calls at once run each deck once. A call that is killed leaves no lock, and no part of a dump becomes a dump. One that
  is interrupted leaves no part, and neither does a full disk or too little memory. Another program's results count as
  not done, and so do those of a program that ends with 0 without a dump, or with 1 without a fault line. A file that
  no call has written is kept, and no link is followed.
- The script for Slurm, with more tasks than decks, two of its tasks again, and with another number of tasks.

Run it after a change of that page, or of `tools/run-jobs`.
"""

from __future__ import annotations

import os
import re
import resource
import shutil
import signal
import subprocess
from contextlib import contextmanager
from pathlib import Path
from typing import Any, Callable, Iterator

import pytest
from running import Ended, Runner, called

from cdc6600.shared.decks import FIRST, RUN, deck, decks, lines_of, log_of
from cdc6600.shared.program import ROOT
from cdc6600.shared.waiting import finish, wait_until

PAGE, TOOL = ROOT / "docs/use/tools.md", ROOT / "tools/run-jobs"
# A command runs all decks, some of them up to their budgets.
MINUTES = 30
# A run that is killed when it has written a part of its dump.
KILLED = "killed"
EVERY = sorted([*(it.name for it in decks()), KILLED])
# The folders of the jobs, for runs without and with `--sequential`.
JOBS, SEQUENTIAL_JOBS = "jobs", "jobs-sequential"
ONE = "decks/one.deck"
# It notes the deck and the words of each run. As long as a file says so, it kills the run of one of the decks.
WRAPPER = f"""#!/bin/sh
deck=$(readlink /proc/$$/fd/0)
echo "$deck $*" >>"$NOTES"
if [ -e "$KILLS" ] && [ "${{deck##*/}}" = {KILLED}.deck ]; then
    "$PROGRAM" "$@" | head -c 100
    kill -KILL $$
fi
exec "$PROGRAM" "$@"
"""
# It runs a deck that has the word `wait` until there is a file `go`, or the folder is gone.
SCRIPT = """#!/bin/sh
deck=$(readlink /proc/$$/fd/0)
echo "$deck $*" >>"$NOTES"
echo "P begun"
grep -q wait && while [ ! -e "$GO" ] && [ -e "$NOTES" ]; do sleep 0.05; done
echo "LOG ended"
"""


class Folder:
    """A folder with decks, in which a command of the page or the tool is run. It has a program of its own."""

    def __init__(self, room: Path, script: str, program: str = "") -> None:
        self.room, self.notes, self.kills, self.go = room, room / "notes", room / "kills", room / "go"
        (room / "decks").mkdir()
        (room / "tools").symlink_to(ROOT / "tools")
        (room / "link").symlink_to(TOOL)
        self.write("program", script)
        (room / "program").chmod(0o755)
        names = {"PROGRAM": program, "CDC6600": room / "program"}
        names |= {"NOTES": self.notes, "KILLS": self.kills, "GO": self.go}
        self.environment = {**os.environ, **{name: str(file) for name, file in names.items()}}

    def write(self, name: str, text: str) -> None:
        """Writes a file."""
        (self.room / name).parent.mkdir(exist_ok=True)
        (self.room / name).write_text(text, encoding="utf-8")

    def run(self, *words: str, minutes: float = MINUTES, **more: str) -> tuple[Ended, list[str]]:
        """How a command ends in this folder, and the names of the decks that were run."""
        self.notes.write_bytes(b"")
        return called(*words, cwd=self.room, env={**self.environment, **more}, minutes=minutes), self.noted()

    @contextmanager
    def call(self, *words: str, **how: Any) -> Iterator[subprocess.Popen[str]]:
        """Starts the tool through a symbolic link, with these words; its process. It leads a group of processes."""
        pipes = {"stdout": subprocess.PIPE, "stderr": subprocess.PIPE, "text": True, "start_new_session": True}
        begin: dict[str, Any] = {"cwd": self.room, "env": self.environment, **pipes, **how}
        with subprocess.Popen(["./link", *words], **begin) as process:
            try:
                yield process
            except BaseException:
                process.kill()
                raise

    def answer(self, *words: str, **how: Any) -> tuple[Ended, list[str]]:
        """How the tool ends, and the decks that were run."""
        self.notes.write_bytes(b"")
        with self.call(*words, **how) as process:
            printed, told = finish(process, f"tools/run-jobs {' '.join(words)}")
        return Ended(process.returncode, printed, told), self.noted()

    def refusal(self, *words: str, **how: Any) -> str:
        """The line in which the tool refuses its words; it runs nothing."""
        came, ran = self.answer(*words, **how)
        assert (came.status, came.printed, came.told.count("\n"), ran) == (255, "", 1, [])
        return came.told

    def noted(self, *options: str) -> list[str]:
        """The names of the decks whose runs were noted, with these options."""
        notes = [line.split() for line in self.notes.read_text(encoding="utf-8").splitlines()]
        return sorted(Path(file).stem for file, *words in notes if set(options) <= set(words))

    def begun(self, many: int) -> None:
        """Waits until so many runs have begun."""
        wait_until(lambda: len(self.noted()) == many, f"the begin of {many} runs")

    def files(self, jobs: str = JOBS) -> list[str]:
        """The names of the files in a folder of results."""
        return sorted(file.name for file in (self.room / jobs).iterdir())

    def kept(self, name: str, ending: str, jobs: str = JOBS) -> bytes | None:
        """What a file of a job has, or nothing if it isn't there."""
        file = self.room / f"{jobs}/{name}.{ending}"
        return file.read_bytes() if file.is_file() else None


# The end of a call whose jobs are all done.
DONE = Ended(0)


# ---- the commands of the page ----


def command(word: str = "") -> str:
    """The page's first command that calls xargs and has this word."""
    lines = [line.strip() for line in lines_of(PAGE) if re.match(r"    .*\bxargs\b", line)]
    return next(line for line in lines if f" {word} " in line or not word)


@pytest.fixture
def copies(program: Runner, tmp_path: Path) -> Folder:
    """A folder with copies of all decks, and with the one that is killed."""
    folder, run = Folder(tmp_path, WRAPPER, program.path), tmp_path / "decks/run"
    shutil.copytree(RUN, run, ignore=shutil.ignore_patterns("*.dump", "*.status", "*.told"))
    for name in (FIRST.name, f"{KILLED}.deck"):
        shutil.copy(FIRST, run / name)
    folder.write(f"decks/run/{KILLED}.arguments", "--sequential\n")
    return folder


def test_run_that_is_killed(program: Runner, copies: Folder) -> None:
    copies.kills.touch()
    came, ran = copies.run("sh", "-c", command())
    assert (came.status, ran) == (123, EVERY)
    assert (copies.kept(KILLED, "dump"), copies.kept(KILLED, "status")) == (None, b"137\n")
    for it in decks():
        look_at_end(copies, it, JOBS)
        dump = copies.kept(it.name, "dump")
        if it.logs and dump:
            log = log_of(dump)
            assert log in it.logs and program("replay", log, given=it.text).printed.encode() == dump
        else:
            assert dump == it.dump, it
    copies.kills.unlink()
    came, ran = copies.run("sh", "-c", command())
    assert (came.status, ran, copies.kept(KILLED, "dump")) == (0, [KILLED], deck(FIRST.stem).dump)
    assert not [name for name in copies.files() if name.endswith(".part")]


def look_at_end(folder: Folder, it: Any, jobs: str) -> None:
    """Compares what was kept of a run's status and of what it told."""
    kept = folder.kept(it.name, "status", jobs), folder.kept(it.name, "told", jobs) or b""
    assert kept == (b"%d\n" % it.status, it.told), it


def test_sequential_runs(copies: Folder) -> None:
    came, _ = copies.run("sh", "-c", command("--sequential"))
    assert (came.status, copies.noted("--sequential")) == (0, EVERY)
    for it in decks():
        look_at_end(copies, it, SEQUENTIAL_JOBS)
        assert copies.kept(it.name, "dump", SEQUENTIAL_JOBS) == it.dump, it


# ---- the tool by itself ----


@pytest.fixture
def small(tmp_path: Path) -> Folder:
    """A folder with a few decks, whose program is a script, so that it is known how long a run takes."""
    folder = Folder(tmp_path, SCRIPT)
    for name in (ONE, "decks/two.deck", "decks/wait.deck", "others/two.deck"):
        folder.write(name, f"{name}\n")
    return folder


def test_edits(small: Folder) -> None:
    words, arguments = (JOBS, ONE, "decks/two.deck"), "decks/two.arguments"
    changes: tuple[tuple[Callable[[], object], list[str]], ...] = (
        (lambda: None, ["one", "two"]),
        (lambda: os.utime(small.room / ONE), []),
        (lambda: small.write(ONE, "edited\n"), ["one"]),
        (lambda: small.write(arguments, "--budget 7\n"), ["two"]),
        (lambda: small.write(arguments, "--budget\n7"), []),
        (lambda: (small.room / arguments).unlink(), ["two"]),
    )
    for change, ran in changes:
        change()
        assert small.answer(*words) == (DONE, ran)


def test_decks_of_one_name(small: Folder) -> None:
    own, other = "decks/two.deck", "others/two.deck"
    assert small.answer(JOBS, own) == (DONE, ["two"])
    for given in ((own, other), (other,)):
        told = small.refusal(JOBS, *given)
        assert own in told and other in told
    assert small.answer(JOBS, own, "decks/../decks/two.deck") == (DONE, [])
    (small.room / own).unlink()
    assert small.answer(JOBS, other) == (DONE, ["two"])


def waits_for_lock(process: int) -> bool:
    """Whether a call waits for a lock."""
    children = Path(f"/proc/{process}/task/{process}/children").read_text(encoding="ascii").split()
    locks = Path("/proc/locks").read_text(encoding="ascii").splitlines()
    return any(line.split()[5] in children for line in locks if "->" in line)


def test_two_calls_at_once(small: Folder) -> None:
    """The second call has the deck that the first one runs before that run ends."""
    small.notes.write_bytes(b"")
    words = (JOBS, "decks/wait.deck", ONE)
    with small.call(*words) as first:
        small.begun(1)
        with small.call(*words) as second:
            wait_until(lambda: waits_for_lock(second.pid), "the second call to wait for the first")
            small.go.touch()
            ends = [(*finish(it, "a call"), it.returncode) for it in (first, second)]
    assert ends == [("", "", 0)] * 2
    assert (small.noted(), small.kept("wait", "dump")) == (["one", "wait"], b"P begun\nLOG ended\n")


def stopped(small: Folder, stop: Any, number: int) -> Ended:
    """How a call ends to which a signal is sent in the middle of a run."""
    small.notes.write_bytes(b"")
    with small.call(JOBS, "decks/wait.deck") as process:
        small.begun(1)
        stop(process.pid, number)
        if stop == os.kill:
            # What the call has started goes on, and has its output still open.
            process.wait()
            return Ended(process.returncode)
        printed, told = finish(process, "a call")
    return Ended(process.returncode, printed, told)


@pytest.mark.parametrize("stop", (os.killpg, os.kill))
def test_killed_call(small: Folder, stop: Any) -> None:
    """A call is killed with its run, or alone."""
    stopped(small, stop, signal.SIGKILL)
    assert small.files() == ["wait.dump.part", "wait.job"]
    small.go.touch()
    assert small.answer(JOBS, "decks/wait.deck") == (DONE, ["wait"])
    assert small.files() == ["wait.dump", "wait.job", "wait.status"]


def test_interrupted_call(small: Folder) -> None:
    """As by a terminal, all processes of the call get the signal."""
    assert stopped(small, os.killpg, signal.SIGINT) == Ended(128 + signal.SIGINT)
    assert small.files() == ["wait.job"]


@pytest.mark.parametrize("deck", ("decks/none.deck", "decks", "/dev/zero"))
def test_no_deck(small: Folder, deck: str) -> None:
    """The other deck is run."""
    came, ran = small.answer(JOBS, deck, ONE)
    assert came == Ended(1, "", f"tools/run-jobs: {deck} isn't done: it is no file that can be read\n")
    assert (ran, small.kept("one", "status")) == (["one"], b"0\n")


def test_full_disk(small: Folder) -> None:
    """No file may grow."""
    came, _ = small.answer(JOBS, ONE, preexec_fn=lambda: resource.setrlimit(resource.RLIMIT_FSIZE, (0, 0)))
    assert (came.status, came.printed, came.told.count("\n")) == (255, "", 1)
    assert small.files() == ["one.job"]
    assert small.answer(JOBS, ONE) == (DONE, ["one"])


@pytest.mark.parametrize("kibibytes", range(2600, 4000, 200))
def test_little_memory(small: Folder, kibibytes: int) -> None:
    """Any command of the script may lack memory. Then the job isn't done, and the next call does it."""
    most = 1024 * kibibytes
    came, _ = small.answer(JOBS, ONE, preexec_fn=lambda: resource.setrlimit(resource.RLIMIT_AS, (most, most)))
    assert came == DONE or came.status
    assert small.kept("one", "status") == (None if came.status else b"0\n")
    assert small.answer(JOBS, ONE)[0] == DONE and small.kept("one", "dump") == b"P begun\nLOG ended\n"


def test_other_programs(small: Folder) -> None:
    for script, ran in ((SCRIPT, ["one"]), (SCRIPT, []), (f"{SCRIPT}# changed\n", ["one"]), (SCRIPT, ["one"])):
        small.write("program", script)
        assert small.answer(JOBS, ONE) == (DONE, ran)


@pytest.mark.parametrize("status, line", [(0, "prints no dump"), (1, "tells no fault")])
def test_program_without_a_result(small: Folder, status: int, line: str) -> None:
    small.answer(JOBS, ONE)
    small.write("program", f"#!/bin/sh\nexit {status}\n")
    came, ran = small.answer(JOBS, ONE)
    assert (came.status, came.told.count("\n"), line in came.told, ran) == (1, 1, True, [])
    assert small.files() == ["one.job"]


@pytest.mark.parametrize("is_link", (False, True), ids=("file", "link"))
@pytest.mark.parametrize("ending", ("dump", "status", "told", "job"))
def test_file_of_others(small: Folder, ending: str, is_link: bool) -> None:
    """A file or a link that no call has written is in the place of a job's file."""
    small.write(f"{JOBS}/one.{ending}", "mine")
    file, away = small.room / f"{JOBS}/one.{ending}", small.room / "away"
    if is_link:
        file.unlink()
        file.symlink_to(away)
    small.refusal(JOBS, ONE)
    assert file.is_symlink() and not away.exists() if is_link else file.read_bytes() == b"mine"
    file.unlink()
    assert small.answer(JOBS, ONE) == (DONE, ["one"])


def test_tasks_of_slurm(small: Folder) -> None:
    """The page's script, with all of its tasks, two of these again, and with two tasks numbered from 1 on. The
    variables are those that Slurm sets."""
    lines = lines_of(PAGE)
    first = lines.index("#!/bin/sh")
    script = "\n".join(lines[first : lines.index("```", first)])
    numbers = re.search(r"`sbatch --array=(\d+)-(\d+) ", "\n".join(lines))
    assert numbers
    every, names = range(int(numbers[1]), int(numbers[2]) + 1), ["a", "b", "c"]
    for name in names:
        small.write(f"decks/run/{name}.deck", f"{name}\n")
    for count, tasks, wanted in ((10, every, names), (10, (3, 7), ["c"]), (2, (1, 2), names)):
        small.write("jobs.sh", script.replace("% 10", f"% {count}"))
        for name in wanted:
            (small.room / JOBS / f"{name}.status").unlink(missing_ok=True)
        ran = []
        for task in tasks:
            array = {"COUNT": len(tasks), "MIN": min(tasks), "MAX": max(tasks), "ID": task}
            slurm: dict[str, Any] = {f"SLURM_ARRAY_TASK_{name}": str(number) for name, number in array.items()}
            came, names_of_task = small.run("sh", "jobs.sh", SLURM_CPUS_PER_TASK="2", **slurm)
            assert came.status == 0, came
            ran += names_of_task
        assert sorted(ran) == wanted

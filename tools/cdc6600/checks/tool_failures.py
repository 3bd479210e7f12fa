"""Runs the tools where the system refuses them something, and where what they read is long or has no end.

- Each process and each thread that a tool starts is refused in turn: the first, the second, the third, then the fourth,
  the eighth, the sixteenth .., up to a run that starts fewer.
- Memory is short, by several limits.

Each run has to end soon. One to which something is refused has a status that isn't 0, and one line on standard error,
which begins with the name of the tool.

A file, an input and a line without an end are refused by each tool that reads one, in little memory and with the status
of bad input. So is a source program with too many lines.

A name or a text with an escape character is shown with its code instead.

A session with four times as many events is drawn as text in about four times the time of the processor, and never in
nine times. One with more events than a picture has room for is refused as a picture and as pages.

It says nothing if all is right, otherwise a line for each fault. CDC6600 may name the program to ask.

Run it after a change of `tools/cdc6600/shared`, or of a tool that starts processes or threads.
"""

import os
import re
import resource
import signal
import subprocess
import sys
import tempfile
import time
from contextlib import suppress
from functools import partial
from itertools import chain, count
from pathlib import Path
from typing import Any, Callable, Iterable, Iterator, NamedTuple, Sequence

from cdc6600.assembling.sources import MOST_LINES
from cdc6600.drawing.following import Following, Session
from cdc6600.drawing.forms import MOST_COLUMNS, Form
from cdc6600.shared.decks import FIRST, FOLDER, SESSIONS, session
from cdc6600.shared.reading import MOST
from cdc6600.shared.program import ROOT, Program, tell
from cdc6600.shared.waiting import Missing, faults_found, finish, input_of, run

from .refused_starts import PROCESS, THREAD

HARNESS = (sys.executable, "-B", "-m", "cdc6600.checks.refused_starts")
# The minutes that a run may take, beside other work too.
MINUTES = 3
# With the least of these numbers of bytes Python itself can begin, with the most each of these tools ends as usual.
LEAST_MEMORY, MOST_MEMORY = 20 << 20, 100 << 20
# How often a tool is tried if Python crashes. With the least memory it did so once in some two thousand runs. Nobody
# knows why.
TRIES = 3
# The program, which has all memory.
WRAPPER = """#!/bin/sh
ulimit -S -v unlimited
exec "$PROGRAM" "$@"
"""
# The events of two sessions, one of which has four times as many, and how many times as long it may take.
LONG, MOST_TIMES = (2000, 8000), 9
OF_LONG_ADD = ("issue", "read longadd", "finish longadd", "store longadd")
# A word of four sums, and the deck in which such words are at address 0 of the program.
SUMS, DECK_BEGIN = "36312" * 4, "core 2048\nat 41\nword 100000000000000\nword 2000000000000000\nat 100\n"
SESSION_BEGIN = "ask 40\nexchange\n"
EMPTY_DECK = "core 256\nstart 40\nend\n"
ESCAPE = "\x1b[31m"
SESSION, DECK, SOURCE = str(SESSIONS / "conflicts.session"), str(FIRST), str(FOLDER / "source/total.source")
# A file without an end, what a tool says of one, and the memory in which it has to say it.
ENDLESS, TOO_LONG, ENOUGH_MEMORY = "/dev/zero", str(MOST), MOST + 2 * MOST_MEMORY
# Calls that read a file without an end, with the status of bad input; those that read an endless input by this command.
ENDLESS_CALLS: tuple[tuple[Any, ...], ...] = (
    (1, "timeline", ENDLESS), (1, "timeline", SESSION, ENDLESS), (1, "beside", ENDLESS),
    (1, "timeline", "--cycles", "--times", ENDLESS, SESSION), (1, "schedule", ENDLESS), (1, "explore", ENDLESS),
    (1, "operate", "--plain", ENDLESS), (1, "gallery", "none", ENDLESS),
    (1, "image", "pack", ENDLESS), (2, "assemble", ENDLESS), (2, "trace", ENDLESS), (2, "compare", "false", ENDLESS),
)
ENDLESS_INPUTS: tuple[tuple[Any, ...], ...] = (
    (2, "it has more", "yes", "trace", "-"), (2, "it has more", "yes", "assemble", "-"),
    (1, "it has more", "yes", "image", "pack", "-"), (1, "it has more", "yes", "image", "unpack", "-"),
    (1, "1000 characters", "cat /dev/zero", "operate", "--plain", DECK),
    (1, f"more than {MOST_COLUMNS} events", "yes read longadd", "operate", "--plain", DECK),
)
# The places of the starts that are refused to tools/conformance, which starts very many.
FEW_PLACES = (1, 2, 3)
EMULATOR = "sh -c 'exec \"$CDC6600\" replay \"$1\"' sh"


class Tool(NamedTuple):
    """A call of a tool: its name, its words after that, and its standard input."""

    name: str
    words: tuple[str, ...]
    text: bytes = b""

    @property
    def shown(self) -> str:
        """The call as it is told."""
        return f"tools/{self.name} {' '.join(self.words)}"


class Run(NamedTuple):
    """How a run of a tool ended: its status, and its lines on standard error."""

    status: int
    told: list[str]


def tools(folder: str) -> Iterator[Tool]:
    """The calls that are tried; what they write goes into a folder."""
    yield Tool("timeline", (SESSION,))
    yield Tool("timeline", ("--html", SESSION))
    yield Tool("gallery", (f"{folder}/pages", SESSION))
    yield Tool("beside", ("--values", SESSION))
    yield Tool("schedule", (DECK,))
    yield Tool("explore", ("--sessions", "2", DECK))
    yield Tool("compare", (EMULATOR, DECK))
    yield Tool("operate", ("--plain", DECK), b"next\nundo\n")
    yield Tool("trace", (DECK,))
    yield Tool("assemble", (SOURCE,))
    yield Tool("image", ("text", "-"), b"100 5\n")


def ended(tool: Tool, words: Sequence[Any], program: Any, **how: Any) -> Run:
    """Runs a tool by these words with a program up to its end, in a session of its own, with which it is killed if it
    doesn't end.

    Raises Missing then."""
    environment = {**os.environ, "PYTHONPATH": str(ROOT / "tools"), "CDC6600": str(program)}
    pipes: dict[str, Any] = {"stdout": subprocess.DEVNULL, "stderr": subprocess.PIPE}
    with input_of(tool.text) as given:
        process = subprocess.Popen(words, stdin=given, **pipes, env=environment, start_new_session=True, **how)
    with process:
        try:
            _, told = finish(process, tool.shown, MINUTES)
        except Missing:
            with suppress(ProcessLookupError):
                os.killpg(process.pid, signal.SIGKILL)
            raise
    return Run(process.returncode, told.decode(errors="replace").splitlines())


def faults_of_end(what: str, tool: Tool, came: Run) -> list[str]:
    """What is wrong with the end of a run to which something was refused."""
    is_told = len(came.told) == 1 and f"tools/{tool.name}: " in came.told[0]
    return [] if came.status and is_told else [f"{tool.shown}, {what}: status {came.status}, told {came.told[-4:]}"]


def places() -> Iterator[int]:
    """The starts that are refused: each of the first ones, and then fewer and fewer."""
    return chain((1, 2, 3), (4 << it for it in count()))


def faults_of_starts(
    tool: Tool, kind: str, folder: Path, program: str, at_places: Iterable[int] | None = None
) -> list[str]:
    """Refuses a tool each start of a kind in turn, or those at these places; the faults."""
    faults, mark = list[str](), folder / "refused"
    for at in at_places or places():
        came = ended(tool, [*HARNESS, kind, str(at), mark, ROOT / f"tools/{tool.name}", *tool.words], program)
        if not mark.exists():
            return faults
        mark.unlink()
        faults += faults_of_end(f"{kind} {at} refused", tool, came)
    return faults


def wrapped(folder: Path, program: str) -> Path:
    """A script that runs the program with all memory, for a tool that has little."""
    wrapper = folder / "program"
    wrapper.write_text(WRAPPER.replace("$PROGRAM", program), encoding="utf-8")
    wrapper.chmod(0o755)
    return wrapper


def ended_within(tool: Tool, most: int, program: Any) -> Run:
    """Runs a tool with so many bytes of memory, and anew if Python crashes; how it ended."""
    limited = {"preexec_fn": lambda: resource.setrlimit(resource.RLIMIT_AS, (most, -1))}
    for _ in range(TRIES):
        came = ended(tool, [ROOT / f"tools/{tool.name}", *tool.words], program, **limited)
        if came.status != -signal.SIGSEGV:
            break
    return came


def faults_of_memory(tool: Tool, folder: Path, program: str) -> list[str]:
    """Runs a tool with little memory, and with more and more up to its usual end; the faults."""
    faults, wrapper, most = list[str](), wrapped(folder, program), LEAST_MEMORY
    while most <= MOST_MEMORY:
        came = ended_within(tool, most, wrapper)
        if not came.status:
            return faults
        faults += faults_of_end(f"with {most} bytes of memory", tool, came)
        most += most // 50
    return [*faults, f"{tool.shown}: {MOST_MEMORY} bytes of memory aren't enough"]


def session_of(events: int) -> str:
    """A session with so many events of Long Add."""
    many = events // len(OF_LONG_ADD)
    words = "".join(f"word {SUMS}\n" for _ in range(0, many, 4))
    made = "".join(f"{event}\n" for event in OF_LONG_ADD) * many
    return f"{DECK_BEGIN}{words}start 40\nend\n{SESSION_BEGIN}{made}"


def seconds_of(program: Any, events: int) -> float:
    """The seconds of the processor that it takes to draw so many events as text."""
    session = Session("a long session", session_of(events))
    begun = time.process_time()
    following = Following(program, session, None, None)
    following.follow()
    for _ in Form(following).lines():
        pass
    return time.process_time() - begun


def faults_of_long_sessions(folder: Path, program: Program) -> list[str]:
    """Draws long sessions; the faults."""
    short, long = (min(seconds_of(program, events) for _ in range(2)) for events in LONG)
    faults = [f"{LONG} events are drawn in {short:.2f} and {long:.2f} seconds"] if long > MOST_TIMES * short else []
    file = folder / "long.session"
    file.write_text(session_of(MOST_COLUMNS), encoding="utf-8")
    for name, *words in (("timeline", "--svg"), ("timeline", "--html"), ("gallery", f"{folder}/long")):
        tool = Tool(name, (*words, str(file)))
        came = ended(tool, [ROOT / f"tools/{name}", *tool.words], os.environ.get("CDC6600", ""))
        faults += faults_of_end("too many events", tool, came)
        is_told = str(MOST_COLUMNS) in "".join(came.told)
        faults += [] if is_told else [f"{tool.shown}: the limit isn't told: {came.told}"]
    return faults


def limited_calls() -> dict[str, Any]:
    """How a tool is called with little memory, and the program with all."""
    return {"preexec_fn": lambda: resource.setrlimit(resource.RLIMIT_AS, (ENOUGH_MEMORY, -1))}


def faults_of_endless(folder: Path, program: str) -> list[str]:
    """Gives the tools files and inputs without an end; the faults."""
    wrapper, faults = wrapped(folder, program), list[str]()
    for status, name, *words in ENDLESS_CALLS:
        tool = Tool(name, tuple(f"{folder}/none" if it == "none" else it for it in words))
        came = ended(tool, [ROOT / f"tools/{name}", *tool.words], wrapper, **limited_calls())
        faults += differing_end(tool, (status, TOO_LONG), came)
    for status, told, command, name, *words in ENDLESS_INPUTS:
        tool = Tool(name, tuple(words))
        shell = f'set -o pipefail; {command} 2>/dev/null | "$0" "$@"; exit ${{PIPESTATUS[1]}}'
        came = ended(tool, ["bash", "-c", shell, ROOT / f"tools/{name}", *words], wrapper, **limited_calls())
        faults += differing_end(tool, (status, told), came)
    source = folder / "long.source"
    source.write_bytes(b"\n" * (MOST_LINES + 1))
    tool = Tool("timeline", (str(source),))
    came = ended(tool, [ROOT / "tools/timeline", *tool.words], wrapper, **limited_calls())
    return faults + differing_end(tool, (1, f"at most {MOST_LINES} lines"), came)


def differing_end(tool: Tool, wanted: tuple[int, str], came: Run) -> list[str]:
    """A fault unless a run has ended with a status, and with one line that has a text."""
    is_told = len(came.told) == 1 and f"tools/{tool.name}: " in came.told[0] and wanted[1] in came.told[0]
    return [] if came.status == wanted[0] and is_told else [f"{tool.shown}: wanted {wanted}, and not {came}"]


def calls_with_escapes(folder: Path) -> Iterator[tuple[Any, ...]]:
    """The names and words of calls that tell a name or a text with an escape character. Their files are in a folder."""
    missing, saved = f"{folder}/{ESCAPE}", f"{folder}/saved{ESCAPE}"
    stored = session("conflicts")
    answers = re.sub("^(E7 .*)$", rf"\1{ESCAPE}", (stored.answers or b"").decode(), flags=re.MULTILINE)
    texts = {
        "a.source": f"START  PS   {ESCAPE}\n", "a.answers": answers, "a.times": f"{ESCAPE} 1\n",
        "a.session": f"{EMPTY_DECK}{SESSION_BEGIN}{ESCAPE}\n", f"a{ESCAPE}.session": stored.text.decode(),
    }
    for name, text in texts.items():
        (folder / name).write_text(text, encoding="ascii")
    source, answers, times, no_event, named = (str(folder / name) for name in texts)
    readers = "timeline", "beside", "schedule", "explore", "operate", "trace", "assemble"
    yield from ((name, missing) for name in readers)
    yield from (("gallery", f"{folder}/none", missing), ("run-jobs", f"{folder}/none", missing))
    yield from (("compare", "false", missing), ("compare", f"false {ESCAPE}", DECK))
    yield from (("timeline", SESSION, "2", missing),)
    yield from (("assemble", "--listing", source), ("timeline", SESSION, answers), ("timeline", no_event))
    yield from (("schedule", "--times", times, DECK), ("timeline", "--html", named), ("explore", "--html", named))
    yield from (("image", "pack", missing), ("install", "--uninstall", missing))
    yield from (("operate", "--plain", *words) for words in ((source,), (no_event,), ("--save", saved, DECK)))


def faults_of_escapes(folder: Path) -> list[str]:
    """Gives the tools names and texts with an escape character, which no terminal may get; the faults."""
    faults = []
    for name, *words in calls_with_escapes(folder):
        with input_of(f"source\nread {ESCAPE}\nquit\nquit\n".encode()) as typed:
            ran = run([ROOT / f"tools/{name}", *words], MINUTES, capture_output=True, stdin=typed)
        is_shown = ESCAPE.encode() in ran.stdout + ran.stderr
        is_told = b"\\x1b" in ran.stdout + ran.stderr
        faults += [f"tools/{name} {words}: {ran}"] if is_shown or not is_told else []
    return faults


def main() -> int:
    program = Program().path
    with tempfile.TemporaryDirectory() as room:
        folder, kinds = Path(room), (PROCESS, THREAD)
        works: list[Callable[[], list[str]]] = [
            partial(faults_of_starts, it, kind, folder, program) for it in tools(room) for kind in kinds
        ]
        many = Tool("conformance", ("--random", "0", "--every", "100000", EMULATOR))
        works += [partial(faults_of_starts, many, kind, folder, program, FEW_PLACES) for kind in kinds]
        works += [partial(faults_of_memory, it, folder, program) for it in tools(room)]
        works += [partial(faults_of_endless, folder, program), partial(faults_of_escapes, folder)]
        works += [partial(faults_of_long_sessions, folder, Program())]
        return tell([fault for work in works for fault in faults_found(work)])

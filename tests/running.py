"""Runs the program and the tools, and keeps how they ended."""

from __future__ import annotations

import os
import pty
import subprocess
import tty
from contextlib import suppress
from dataclasses import dataclass
from pathlib import Path
from typing import Any, Sequence

from cdc6600.shared.program import ROOT, Program
from cdc6600.shared.waiting import input_of, run


@dataclass(frozen=True)
class Ended:
    """How a command ended: its status, and what it wrote to standard output and to standard error. Bytes that aren't
    text are kept as Python's surrogates, so that different bytes are different texts."""

    status: int
    printed: str = ""
    told: str = ""

    @classmethod
    def of(cls, status: int, printed: bytes = b"", told: bytes = b"") -> Ended:
        """The end of a command that wrote these bytes."""
        return cls(status, text_of(printed), text_of(told))

    @property
    def lines(self) -> list[str]:
        """The lines of its standard output."""
        return self.printed.splitlines()


def name_of(case: Any) -> str:
    """The name of a case that has one."""
    return str(case.name)


def text_of(written: bytes) -> str:
    """Bytes as text that can be compared line by line."""
    return written.decode(errors="surrogateescape")


def bytes_of(text: str) -> bytes:
    """The bytes of such a text."""
    return text.encode(errors="surrogateescape")


def called(*words: str | Path, given: bytes | str = b"", **how: Any) -> Ended:
    """Runs a command with this standard input, in the folder of the repository if no other one is given; how it ends.

    Raises Missing if it doesn't end within ten minutes."""
    how = {"cwd": ROOT, **how}
    with input_of(bytes_of(given) if isinstance(given, str) else given) as text:
        ran = run([*map(str, words)], capture_output=True, stdin=text, **how)
    return Ended.of(ran.returncode, ran.stdout, ran.stderr)


@dataclass(frozen=True)
class Runner:
    """Runs the program by its path."""

    path: str

    def __call__(
        self, *words: str, given: bytes | str = b"", minutes: float = 10, environment: dict[str, str] | None = None
    ) -> Ended:
        """How the program ends with these words and this standard input. A run that doesn't end is killed after so many
        minutes, and has the status 124."""
        text = bytes_of(given) if isinstance(given, str) else given
        return Ended.of(*Program(self.path).run(words, text, minutes, environment))


def states_of(variable: str) -> dict[int, str]:
    """The processes that have this variable, such as `NAME=value`, by their numbers: each with the letter of its state,
    which is T if it is stopped. A process that has ended has no variables."""
    found = {}
    for folder in Path("/proc").glob("[0-9]*"):
        # Another process may end meanwhile.
        with suppress(OSError):
            if variable.encode() in (folder / "environ").read_bytes().split(b"\0"):
                found[int(folder.name)] = (folder / "stat").read_text(encoding="utf-8").rpartition(") ")[2][0]
    return found


def library_of(source: str, folder: Path) -> Path:
    """The library that a source in C of this folder makes, to be loaded by LD_PRELOAD."""
    library = folder / f"{source}.so"
    words = [os.environ.get("CC", "cc"), "-O1", "-shared", "-fPIC", "-o", str(library)]
    run([*words, str(Path(__file__).with_name(source)), "-ldl"]).check_returncode()
    return library


def told_at_terminal(words: Sequence[str], given: bytes) -> str:
    """What a program with these words and this input writes to standard error if that is a terminal. The terminal
    changes no byte. It is read after the program's end, so all has to fit into its buffer of some kilobytes."""
    ours, its = pty.openpty()
    tty.setraw(its)
    told = b""
    with open(ours, "rb", buffering=0) as terminal:
        with open(its, "wb") as error, input_of(given) as text:
            run(words, stdin=text, stdout=subprocess.DEVNULL, stderr=error)
        # At its end a terminal has an error where a pipe has no bytes.
        with suppress(OSError):
            while part := os.read(terminal.fileno(), 4096):
                told += part
    return text_of(told)

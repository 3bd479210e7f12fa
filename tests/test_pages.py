"""Runs each command that the pages show, in the folder of the repository, and compares what it prints with the lines
that are shown for it.

A command is in a block between lines of three backquotes, after `$ ` at the beginning of a line. The lines up to the
next command or the end of the block are what it prints, standard error too; `..` is any number of lines that are left
out. `$?` in a command is the status of the command before it in its block. A line that looks like a command and isn't
in this form is a fault, and so is a page without commands. Each command of README.md is in readme-commands.md, which
has its output; those with `--unproved` aren't tried. If CDC6600 names a program, it is run instead of `./cdc6600`.

Run it after a change of what is computed or printed, or of one of these pages.
"""

from __future__ import annotations

import os
import re
import signal
import subprocess
from contextlib import suppress
from dataclasses import dataclass, field

import pytest

from cdc6600.shared.program import ROOT
from cdc6600.shared.waiting import Missing, finish

PAGES = (
    "docs/use/tutorial.md", "docs/use/tools.md", "docs/use/teaching.md", "docs/use/keepers.md", "docs/use/emulators.md",
    "decks/pages/commands.md", "decks/pages/readme-commands.md",
)
README, OF_README = "README.md", "decks/pages/readme-commands.md"
FENCE, PROMPT, GAP = "```", "$ ", ".."
COMMANDS = (PROMPT, "./cdc6600 ", "tools/beside ", "tools/explore ", "tools/schedule ", "tools/timeline ")
# `$?` is the status that the first argument is; the second one is the command.
SHELL = ("sh", "-c", '(exit "$1"); eval "$2"', "sh")
# It is read before any test, since other tests set it for the tools that they call.
NAMED_PROGRAM = os.environ.get("CDC6600")


@dataclass
class Command:
    """A command of a page, the number of its line, and the lines that are shown for it."""

    words: str
    number: int
    shown: list[str] = field(default_factory=list)

    def run(self, status: int) -> tuple[int, list[str]]:
        """Runs it after a command that ended with this status; its own status, and what it prints.

        Raises Missing if it doesn't end, and kills it then with all that it has started."""
        words = self.words.replace("./cdc6600", f"'{NAMED_PROGRAM}'") if NAMED_PROGRAM else self.words
        own = {name: value for name, value in os.environ.items() if name != "CDC6600" or NAMED_PROGRAM}
        with subprocess.Popen(
            [*SHELL, str(status), words], cwd=ROOT, env={**own, "LC_ALL": "C"}, start_new_session=True,
            stdin=subprocess.DEVNULL, stdout=subprocess.PIPE, stderr=subprocess.STDOUT,
        ) as process:
            try:
                printed, _ = finish(process, words)
            except Missing:
                with suppress(ProcessLookupError):
                    os.killpg(process.pid, signal.SIGKILL)
                raise
        return process.returncode, printed.decode(errors="backslashreplace").splitlines()

    def fits(self, printed: list[str]) -> bool:
        """Whether these lines are the shown ones, with any number of lines at each gap."""
        pattern = "".join("(?:.*\n)*" if line == GAP else re.escape(line) + "\n" for line in self.shown)
        return bool(re.fullmatch(pattern, "".join(f"{line}\n" for line in printed)))


def lines_of(page: str) -> list[str]:
    """The lines of a page."""
    text: str = (ROOT / page).read_text(encoding="utf-8")
    return text.splitlines()


def blocks_of(page: str) -> list[list[Command]]:
    """The commands of each block that has any."""
    blocks: list[list[Command]] = []
    is_block = False
    for number, line in enumerate(lines_of(page), 1):
        if line.startswith(FENCE):
            is_block = not is_block
            blocks += [[]] * is_block
        elif is_block and line.startswith(PROMPT):
            blocks[-1] = [*blocks[-1], Command(line.removeprefix(PROMPT), number)]
        elif is_block and blocks[-1]:
            blocks[-1][-1].shown.append(line)
    return [block for block in blocks if block]


@pytest.mark.parametrize(
    "page, commands",
    [pytest.param(page, block, id=f"{page}:{block[0].number}") for page in PAGES for block in blocks_of(page)],
)
def test_block(page: str, commands: list[Command]) -> None:
    status = 0
    for command in commands:
        status, printed = command.run(status)
        wanted = printed if command.fits(printed) else command.shown
        assert printed == wanted, f"{page}:{command.number}: $ {command.words}"


@pytest.mark.parametrize("page", PAGES)
def test_each_command_is_in_a_block(page: str) -> None:
    lines, commands = lines_of(page), [it for block in blocks_of(page) for it in block]
    taken = {it.number + further for it in commands for further in range(len(it.shown) + 1)}
    alike = {number for number, line in enumerate(lines, 1) if line.lstrip(" ").startswith(COMMANDS)}
    assert commands and sum(line.startswith(FENCE) for line in lines) % 2 == 0
    assert [f"{page}:{number}: {lines[number - 1]}" for number in sorted(alike - taken)] == []


def test_commands_of_readme_have_their_output() -> None:
    found = re.findall(r"\./cdc6600 [^`\n]*", (ROOT / README).read_text(encoding="utf-8"))
    shown = lines_of(OF_README)
    assert [it for it in found if "--unproved" not in it and PROMPT + it not in shown] == []

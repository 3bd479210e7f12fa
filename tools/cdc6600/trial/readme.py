"""What README.md says of the set-up: the packages of a fresh machine, and the commands of a first run."""

import re
from dataclasses import dataclass, field

from cdc6600.shared.program import ROOT

PAGE, SECTIONS = "README.md", ("What it needs", "A first run")
INDENT = "    "
PACKAGES = re.compile(r"`apt-get install ([^`]+)`")
# How a command begins; another indented line is of the output of the command before it.
COMMANDS = ("./", ".ci/", "tools/")


@dataclass
class Command:
    """A command, and the lines that are shown of its output."""

    words: str
    shown: list[str] = field(default_factory=list)


def lines() -> list[str]:
    """The lines of the sections."""
    parts = re.split(r"^## (.*)\n", (ROOT / PAGE).read_text(encoding="utf-8"), flags=re.MULTILINE)
    return [line for name, text in zip(parts[1::2], parts[2::2]) if name in SECTIONS for line in text.splitlines()]


def packages() -> list[str]:
    """The Debian packages that a first run needs."""
    return [name for found in PACKAGES.findall("\n".join(lines())) for name in found.split()]


def commands() -> list[Command]:
    """The commands, in their order."""
    found: list[Command] = []
    for line in (it.removeprefix(INDENT) for it in lines() if it.startswith(INDENT)):
        if line.startswith(COMMANDS):
            found.append(Command(line))
        elif found:
            found[-1].shown.append(line)
    return found

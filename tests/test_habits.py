"""Checks what a user of Unix is used to: the manual page docs/use/cdc6600.1, completions in a shell, and tools/install.

- `man` has no warning for the page. Its synopsis, its tables and its paragraphs are those of docs/use/formats.md, and
  its commands and options those that the program's help texts name.
- docs/help.txt and docs/version.txt, which ./cdc6600 shows before the program is built, are what the program prints.
- The scripts of tools/completions have the commands and options of the program's help texts; those for zsh and fish
  have the sentences too.
- Into a folder of its own, whose name has a space, tools/install installs the program, which runs a deck then, and the
  page, which `man` finds there. The examples of the page are run with that program. Each tool that is installed prints
  what the one of this repository prints, and what README.md links to is there, except for what only a checkout has.
  What --without names is left out, and removed if it was there. Then --uninstall leaves nothing. An empty folder
  stands before all of it as DESTDIR once, and a PREFIX that can't be is refused in one line. The library is left out:
  tools/check embedding installs it.

Run it after a change of the command line, of the version, of docs/use/formats.md, of the page or of what is installed.
"""

from __future__ import annotations

import os
import re
from itertools import takewhile
from pathlib import Path
from typing import Iterator

import pytest
from running import Ended, Runner, called

from cdc6600.installing.completions import FILES, script_file
from cdc6600.shared.decks import FIRST, deck, lines_of
from cdc6600.shared.program import ROOT

PAGE, FORMATS = ROOT / "docs/use/cdc6600.1", ROOT / "docs/use/formats.md"
# The sections of the page with the section of docs/use/formats.md whose paragraphs each has, and those with a table of
# a section, by its head.
PROSE = {"DESCRIPTION": None, "OUTPUT": "Dump", "EXAMPLES": "Examples", "LIMITS": "Limits",
         "ENVIRONMENT AND FILES": "Environment and files"}
TABLES = {"COMMANDS": ("Command line", "Command"), "OPTIONS": ("Command line", "Option"), "INPUT": ("Deck", "Line"),
          "EXIT STATUS": ("Exit statuses", "Status"), "DIAGNOSTICS": ("Fault lines", "Text")}
# Where the tag of an entry begins in a line of `man`, and its text; a longer tag has a line of its own.
TAG, TEXT = 7, 14
# How `man` shows where an entry of a list begins.
BULLET = "o"
# The one row that speaks of the page on which it stands.
ELSEWHERE = ("listed below", "listed in docs/use/formats.md")
# How the output of each block of examples ends, or what it has; the first block writes the deck.
SHOWN = ("", "LOG E40 I3\n", "LOG E40 I4\n", "LOG E40 I4\n", "E9 operand awaited X1\n", "000101 ")
# The commands, and the one that prints help texts.
COMMANDS, HELPING = ("run", "replay", "events", "list"), "help"
# What the script for bash makes of words, the last of which is typed in part.
COMPLETED: tuple[tuple[tuple[str, ...], list[str]], ...] = (
    (("",), ["run", "replay", "events", "list", "help", "-h", "--help", "-V", "--version"]),
    (("help", "r"), ["run", "replay"]),
    (("r",), ["run", "replay"]),
    (("run", "-"), ["--sequential", "--budget", "-h", "--help"]),
    (("run", "--sequential", "--b"), ["--budget"]),
    (("events", "--"), ["--budget", "--help"]),
    (("run", "--budget", "--"), []),
    (("run", "<", "-"), []),
    (("replay", ""), []),
    (("replay", "--l"), ["--log-follows"]),
)
# What the tools are called with, the installed ones and those of this repository. Files are those of decks/.
CALLED = (
    "assemble source/sorting.source", "beside conflicts", "compare --help", "completions bash", "conformance --help",
    "explore run/jump.deck", "gallery pages", "image --help", "operate --help", "random-deck 7",
    "run-jobs jobs two-adds.deck", "schedule two-adds.deck", "timeline sessions/conflicts.session",
    "trace two-adds.deck",
)
# What README.md names that only a checkout has.
OF_CHECKOUT = re.compile(r"tools/(debian-packages|install|build-library|build-module|build-program)")
INSTALL, WITHOUT_LIBRARY = ROOT / "tools/install", ("--without", "library")
OF_PAGES = "share/doc/cdc6600"
# A file of each other part.
LEFT_OUT = {
    "completions": FILES["bash"], "pages": f"{OF_PAGES}/docs/use/tutorial.md", "program": "bin/cdc6600",
    "tools": f"{OF_PAGES}/tools/timeline",
}
# An option in a help text: its short name, its name, and what is said of it.
OPTION = re.compile(r"^ +(?:(-\w), )?(--[\w-]+)(?: <\w+>)?  +(.*?)(?: \[.*\])?$", re.MULTILINE)
COMPLETE = '. "$0"; COMP_WORDS=("$@"); COMP_CWORD=$(($# - 1)); _cdc6600; echo "${COMPREPLY[@]}"'


class Manual:
    """The manual page as `man` shows it with lines of any length: the lines of each section by its head."""

    def __init__(self) -> None:
        how = {**os.environ, "LC_ALL": "C", "MANWIDTH": "20000", "MANPAGER": "cat"}
        shown = called("man", "--no-hyphenation", "--no-justification", "-l", PAGE, env=how)
        self.sections, lines = dict[str, list[str]](), list[str]()
        for line in shown.lines[1:-1]:
            if line[:1].strip():
                lines = self.sections.setdefault(line.strip(), [])
            else:
                lines.append(line[TAG:])

    def entries(self, section: str) -> dict[str, str]:
        """The tags of a section's entries, each with its text."""
        lines, found, indented = self.sections[section], {}, " " * (TEXT - TAG)
        for line, after in zip(lines, [*lines[1:], ""]):
            if line[:1].strip() and after.startswith(indented):
                found[line] = after.strip()
            elif line[:1].strip() and line[TEXT - TAG - 1] == " ":
                found[line[: TEXT - TAG].strip()] = line[TEXT - TAG :]
        return found


@pytest.fixture(scope="module")
def page() -> Manual:
    return Manual()


def plain(text: str) -> str:
    """A text of docs/use/formats.md as the page has it: without marks and links."""
    text = re.sub(r"[`*]", "", re.sub(r"\[([^]]*)\]\([^)]*\)", r"\1", text))
    return text.replace(*ELSEWHERE).replace("./cdc6600", "cdc6600")


def test_warnings() -> None:
    ran = called("man", "--warnings", "-E", "UTF-8", "-l", "-Tutf8", "-Z", PAGE)
    assert (ran.status, ran.told) == (0, "")


def test_synopsis(page: Manual) -> None:
    synopsis = [line[4:] for line in lines_of(FORMATS, "Command line") if line.startswith("    ")]
    assert [line for line in page.sections["SYNOPSIS"] if line] == synopsis


@pytest.mark.parametrize("section", TABLES)
def test_table(page: Manual, section: str) -> None:
    name, head = TABLES[section]
    lines = lines_of(FORMATS, name)
    first = next(at for at, line in enumerate(lines) if line.startswith(f"| {head} |")) + 2
    rows = (re.split(r" \|(?= |$)", line[1:]) for line in takewhile(lambda line: line.startswith("|"), lines[first:]))
    assert page.entries(section) == {plain(cells[0]).strip(): plain(cells[1]).strip() for cells in rows}


@pytest.mark.parametrize("section", PROSE)
def test_prose(page: Manual, section: str) -> None:
    """Without a name it is the prose before the first section."""
    name = PROSE[section]
    lines = lines_of(FORMATS, name) if name else takewhile(lambda line: line[:3] != "## ", lines_of(FORMATS)[1:])
    kept = (re.sub(r"^(- |\d+\. )", "", line) for line in lines if not line.startswith(("|", "```")))
    words = " ".join(page.sections[section]).split()
    assert [word for word in words if word != BULLET] == plain("\n".join(kept)).split()


def test_help(program: Runner, page: Manual) -> None:
    """The help texts have the commands, statuses and options of the page."""
    text = program("--help").printed
    named = re.findall(r"^  (\w+)  +[A-Z]", text, re.MULTILINE)
    assert named == [*COMMANDS, HELPING] and sorted(page.entries("COMMANDS")) == sorted(named)
    statuses = re.findall(r"^  (\d)  ", text.partition("Exit status:")[2], re.MULTILINE)
    assert statuses == [*page.entries("EXIT STATUS")]
    texts = text + "".join(program(command, "--help").printed for command in COMMANDS)
    options = {re.sub(r"<(\w+)>", r"\1", it) for it in re.findall(r"^  +(-.*?)(?:  |$)", texts, re.MULTILINE)}
    assert options == {*page.entries("OPTIONS")} - {"--"}


@pytest.mark.parametrize("command", COMMANDS)
def test_usage(program: Runner, page: Manual, command: str) -> None:
    usage = re.findall(r"^Usage: (.*)$", program(command, "--help").printed, re.MULTILINE)
    assert usage == [line for line in page.sections["SYNOPSIS"] if line.split()[1:2] == [command]]


@pytest.mark.parametrize("option, name", (("--help", "help"), ("-h", "help"), ("--version", "version"),
                                          ("-V", "version")))
def test_copy(program: Runner, option: str, name: str) -> None:
    """The commit and the kit behind a version are those of a build."""
    printed = re.sub(r"(?m)^(cdc6600 [0-9.]+) \(commit [^()]*\)$", r"\1", program(option).printed)
    assert printed == (ROOT / f"docs/{name}.txt").read_text(encoding="utf-8")


def script(shell: str) -> str:
    """The script of zsh or fish, with its quotes."""
    return script_file(shell).read_text(encoding="utf-8").replace(r"'\''", "'")


def completed(script: str | Path, *words: str) -> list[str]:
    """What the script for bash makes of words, the last of which is typed in part."""
    ran = called("bash", "-c", COMPLETE, script, "cdc6600", *words)
    assert ran.told == ""
    return ran.printed.split()


def test_commands_in_scripts(program: Runner) -> None:
    listed = re.findall(r"^  (\w+)  +([A-Z].*)$", program("--help").printed, re.MULTILINE)
    assert re.findall(r"^ +'(\w+):(.*)'$", script("zsh"), re.MULTILINE) == listed
    assert re.findall(r" -a (\w+) -d '(.*)'$", script("fish"), re.MULTILINE) == listed


@pytest.mark.parametrize("command", COMMANDS)
def test_options_in_scripts(program: Runner, command: str) -> None:
    options = OPTION.findall(program(command, "--help").printed)
    names = [it for short, option, _ in options for it in (short, option) if it]
    assert completed(script_file("bash"), command, "-") == names
    said = [(option, words) for _, option, words in options]
    line, = re.findall(rf"^ +{command}\) (.*) ;;$", script("zsh"), re.MULTILINE)
    assert re.findall(r"(--[\w-]+)(?:=|}')?\[(.*?)\]", line) == said
    found = re.findall(rf"_from {command}'.* -l ([\w-]+)(?: -x)? -d '(.*)'$", script("fish"), re.MULTILINE)
    assert [(f"--{option}", words) for option, words in found] == said


def install(*words: str | Path, **variables: str) -> None:
    assert called(INSTALL, *words, env={**os.environ, **variables}) == Ended(0)


@pytest.fixture(scope="module")
def prefix(program: Runner, tmp_path_factory: pytest.TempPathFactory) -> Iterator[Path]:
    """A folder into which all is installed, twice. It is removed after the cases, and then no file may be left."""
    folder = tmp_path_factory.mktemp("installed") / "the prefix"
    for _ in range(2):
        install(*WITHOUT_LIBRARY, folder)
    yield folder
    install("--uninstall", folder)
    assert not [*folder.rglob("*")]


def with_program_of(prefix: Path) -> dict[str, str]:
    """The variables by which a shell finds the installed program first."""
    return {**os.environ, "PATH": f"{prefix / 'bin'}:{os.environ.get('PATH', '')}"}


def test_installed_program(prefix: Path) -> None:
    came = Runner(str(prefix / "bin/cdc6600"))("run", given=(prefix / OF_PAGES / FIRST.relative_to(ROOT)).read_bytes())
    assert came == Ended.of(0, deck(FIRST.stem).dump or b"")


def test_installed_page(prefix: Path) -> None:
    found = called("man", "-M", prefix / "share/man", "-w", "cdc6600", env=with_program_of(prefix)).printed.strip()
    assert found == str(prefix / "share/man/man1/cdc6600.1")


@pytest.mark.parametrize("words, wanted", COMPLETED, ids=str)
def test_installed_completion(prefix: Path, words: tuple[str, ...], wanted: list[str]) -> None:
    assert completed(prefix / FILES["bash"], *words) == wanted


def test_links(prefix: Path) -> None:
    folder = prefix / OF_PAGES
    links = re.findall(r"\]\(([^):#]+)", (folder / "README.md").read_text(encoding="utf-8"))
    assert not [link for link in links if not (folder / link).exists() and not OF_CHECKOUT.fullmatch(link)]


def made(command: Path, call: str, room: Path, environment: dict[str, str]) -> tuple[Ended, dict[str, bytes]]:
    """How a tool ends in an empty folder, and the files that it writes."""
    room.mkdir()
    words = [str(ROOT / "decks" / word) if "." in word else word for word in call.split()[1:]]
    ended = called(command, *words, cwd=room, env=environment)
    return ended, {str(it.relative_to(room)): it.read_bytes() for it in room.rglob("*") if it.is_file()}


@pytest.mark.parametrize("call", CALLED)
def test_installed_tool(prefix: Path, tmp_path: Path, call: str) -> None:
    """The installed tools have to find the installed program by themselves."""
    name, own = call.split()[0], {key: value for key, value in os.environ.items() if key != "CDC6600"}
    wanted = made(ROOT / "tools" / name, call, tmp_path / "wanted", dict(os.environ))
    assert wanted[0].status == 0
    assert made(prefix / OF_PAGES / "tools" / name, call, tmp_path / "tool", own) == wanted
    assert made(prefix / f"bin/cdc6600-{name}", call, tmp_path / "command", own) == wanted


def test_commands_of_tools(prefix: Path) -> None:
    commands = [prefix / f"bin/cdc6600-{call.split()[0]}" for call in CALLED]
    assert sorted(prefix.glob("bin/cdc6600-*")) == commands


@pytest.mark.parametrize("part", LEFT_OUT)
def test_left_out(prefix: Path, part: str) -> None:
    file = prefix / LEFT_OUT[part]
    assert file.exists()
    install(*WITHOUT_LIBRARY, "--without", part, prefix)
    assert not file.exists()
    install(*WITHOUT_LIBRARY, prefix)


def test_examples(page: Manual, prefix: Path, tmp_path: Path) -> None:
    """The blocks are run one after the other."""
    text = "".join(f"{line}\n" for line in page.sections["EXAMPLES"])
    for block, shown in zip(re.findall(r"(?:^    .*\n)+", text, re.MULTILINE), SHOWN, strict=True):
        ran = called("sh", "-c", re.sub("^    ", "", block, flags=re.MULTILINE), cwd=tmp_path,
                     env=with_program_of(prefix))
        assert shown in ran.printed and ran.told == ""


def test_destdir(program: Runner, tmp_path: Path) -> None:
    install(*WITHOUT_LIBRARY, "/usr", DESTDIR=str(tmp_path))
    assert (tmp_path / "usr/bin/cdc6600").is_file()


def test_prefix_that_is_a_file(program: Runner, tmp_path: Path) -> None:
    (tmp_path / "file").touch()
    ran = called(INSTALL, *WITHOUT_LIBRARY, tmp_path / "file")
    assert (ran.status, ran.told.count("\n")) == (1, 1)

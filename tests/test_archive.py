"""Tries the archive that tools/install --tar makes for people without the toolchain.

- If it is made twice, the bytes are the same. Its files have one time and one owner.
- It is unpacked in another folder, whose name has a space. There the commands of START.txt, with no variables of the
  environment except for a PATH of /usr/bin and /bin, print the stored dump and the stored timeline. The program beside
  the pages prints that dump too, and each tool its help text. All that START.txt names is there.
- No file names the folder of this repository or that of the program. The program, and the library that the tools ask,
  need no later glibc than START.txt says.
- An archive is written over, and no other file: that, a link, a folder and a FILE that can't be are refused in a line.

It needs Python in /usr/bin or /bin, and the built files in docs/try.

Run it after a change of tools/install or of what it installs.
"""

from __future__ import annotations

import re
import tarfile
from pathlib import Path
from typing import Sequence

import pytest
from running import Ended, Runner, called, text_of

from cdc6600.commands.install import DOCUMENTS, OF_TOOLS, PROGRAM, TOOLS
from cdc6600.installing.archive import FOLDER, TIME
from cdc6600.shared.decks import FIRST, deck, session
from cdc6600.shared.program import ROOT

ALONE = {"PATH": "/usr/bin:/bin"}
NAMED = re.compile(r"(?:bin|share)/[\w./-]*\w")
LATEST, NEEDED = re.compile(r"glibc (\d+)\.(\d+)"), re.compile(rb"GLIBC_(\d+)\.(\d+)")
# The name of the archive, and the session that START.txt draws.
NAME, DRAWN = "cdc6600.tar.gz", "conflicts"
DUMP = Ended.of(0, deck(FIRST.stem).dump or b"")
# What the commands of START.txt print, and that of the program beside the pages.
COMMANDS = (DUMP, Ended.of(0, session(DRAWN).timeline or b""))
BESIDE_PAGES = f"cd {DOCUMENTS} && ./cdc6600 run < {FIRST.relative_to(ROOT)}"
BAD_CALLS = ([NAME, "prefix"], [NAME, "--uninstall"], [NAME, "--without", "tools"])


def install(folder: Path, *words: str | Path) -> Ended:
    """How tools/install --tar ends in a folder."""
    return called(ROOT / "tools/install", "--tar", *words, cwd=folder)


@pytest.fixture(name="room", scope="module")
def folder_with_archive(program: Runner, tmp_path_factory: pytest.TempPathFactory) -> Path:
    """A folder with an archive."""
    folder = tmp_path_factory.mktemp("archive")
    assert install(folder, NAME) == Ended(0)
    return folder


@pytest.fixture(name="unpacked", scope="module")
def unpacked_archive(room: Path) -> Path:
    """The archive, unpacked in another folder."""
    place = room / "some where"
    place.mkdir()
    assert called("tar", "-xzf", room / NAME, "-C", place) == Ended(0)
    return place / FOLDER


@pytest.fixture(name="start", scope="module")
def text_of_start(unpacked: Path) -> str:
    return (unpacked / "START.txt").read_text(encoding="utf-8")


def ran(folder: Path, line: str) -> Ended:
    """How a line for the shell ends in the unpacked folder."""
    return called("/bin/sh", "-c", line, cwd=folder, env=ALONE)


def test_made_twice(room: Path) -> None:
    first = (room / NAME).read_bytes()
    assert install(room, NAME) == Ended(0)
    assert (room / NAME).read_bytes() == first


def test_times_and_owners(room: Path) -> None:
    with tarfile.open(room / NAME) as archive:
        assert {(it.mtime, it.uid, it.gid, it.uname, it.gname, it.isfile()) for it in archive} == {
            (TIME, 0, 0, "", "", True)
        }


def test_refused_files(room: Path, tmp_path: Path) -> None:
    other, link, folder, text = (tmp_path / it for it in ("other", "link", "folder", "text"))
    text.write_bytes(b"text")
    link.symlink_to(room / NAME)
    folder.mkdir()
    with tarfile.open(other, "w:gz") as written:
        written.add(text, "text")
    before = other.read_bytes()
    for it in (other, text, link, folder, tmp_path / "none/archive", text / "archive", ""):
        came = install(tmp_path, str(it))
        assert (came.status, came.told.count("\n")) == (1, 1)
    assert other.read_bytes() == before and text.read_bytes() == b"text" and link.is_symlink()
    assert not list(tmp_path.glob(".*.new"))


@pytest.mark.parametrize("words", BAD_CALLS)
def test_bad_call(room: Path, words: Sequence[str]) -> None:
    assert install(room, *words).status == 2


def test_commands(unpacked: Path, start: str) -> None:
    lines = re.findall(r"^    (bin/.*)$", start, re.MULTILINE)
    assert tuple(ran(unpacked, line) for line in lines) == COMMANDS
    assert ran(unpacked, BESIDE_PAGES) == DUMP


@pytest.mark.parametrize("tool", TOOLS)
def test_help(unpacked: Path, tool: str) -> None:
    came = ran(unpacked, f"bin/cdc6600-{tool} --help")
    assert (came.status, bool(came.printed), came.told) == (0, True, "")


def test_named_files(unpacked: Path, start: str) -> None:
    assert not [it for it in NAMED.findall(start) if not (unpacked / it).exists()]


def test_places(program: Runner, unpacked: Path) -> None:
    places = {str(it) for it in (ROOT, Path(program.path).resolve().parent)}
    files = [it for it in unpacked.rglob("*") if it.is_file()]
    assert not [it for it in files if any(place in text_of(it.read_bytes()) for place in places)]


@pytest.mark.parametrize("name", (PROGRAM, OF_TOOLS))
def test_library(unpacked: Path, start: str, name: str) -> None:
    latest = LATEST.search(start)
    assert latest
    needed = max(tuple(map(int, it)) for it in NEEDED.findall((unpacked / name).read_bytes()))
    assert needed <= tuple(map(int, latest.groups()))

"""Installs the program cdc6600, the library for C, and the tools, pages and decks that their users need:

    PREFIX/bin/cdc6600                  the proved executable
    PREFIX/bin/cdc6600-NAME             each tool, as cdc6600-timeline
    PREFIX/lib/cdc6600/libcdc6600.so    the shared library, which the tools ask
    PREFIX/lib/libcdc6600.a             the library, PREFIX/include/cdc6600.h its header, and
    PREFIX/lib/pkgconfig/cdc6600.pc     what pkg-config says of it
    PREFIX/share/man/man1/cdc6600.1     the manual page
    PREFIX/share/doc/cdc6600            README.md, docs/, decks/, tools/ and the rest that README.md names, and the list
                                        of what was installed

and the scripts of tools/completions, by which a shell completes the program's commands and options:

    PREFIX/share/bash-completion/completions/cdc6600
    PREFIX/share/zsh/site-functions/_cdc6600
    PREFIX/share/fish/vendor_completions.d/cdc6600.fish

If there is no executable of these sources, `tools/build-program` proves and builds it first, and tools/build-library
the library, which takes some ten minutes. Each file is written beside its place and then renamed, so nobody finds half
of one. What an earlier call has installed and this one doesn't is removed. With --uninstall all that the list names is
removed, with the folders that were made for it and are empty then.

With --tar all of this except the library for C and the completions goes into an archive, packed by gzip, for people
without the toolchain. It has one folder cdc6600, which works wherever it is unpacked; START.txt there says how to
begin. The program needs Linux on x86-64 with glibc 2.34 or later, the tools need Python 3.10 or later too, and the page
in a browser needs neither. The same files give the same bytes. FILE is written over only if it is such an archive.

Three variables of the environment are read: CDC6600 may name the executable to install, CDC6600_LIBRARY the folder with
the library, and what DESTDIR has stands before PREFIX wherever something is written or removed.
"""

import argparse
import os
import re
import subprocess
import sys
from functools import cache
from pathlib import Path
from typing import Container, Iterable, Iterator

from cdc6600.building.library import ARCHIVE, SHARED
from cdc6600.installing.archive import archive, is_archive
from cdc6600.installing.completions import FILES, script_file
from cdc6600.installing.installation import Fault, Installation, Piece
from cdc6600.shared.ending import printable
from cdc6600.shared.program import BUILT, ROOT, Program, named_program
from cdc6600.shared.writing import why_not_written

PROGRAM, DOCUMENTS = "bin/cdc6600", "share/doc/cdc6600"
LIST = f"{DOCUMENTS}/installed"
# The page that drives a machine in a browser, from the repository's folder on.
TRIED = "docs/try/cdc6600.html"
EMBEDDING = ROOT / "crates/embedding"
# Where the tools look for the shared library. In PREFIX/lib a linker would take it instead of the archive.
OF_TOOLS = f"lib/cdc6600/{SHARED}"

# What the tools read, by its names from the repository's folder on.
READ_BY_TOOLS = (
    "docs/use/instructions.md",
    "decks/README.md",
    "decks/*.deck",
    "decks/run/*.*",
    "decks/sessions/*.*",
)
# The pages of a user, with what README.md names besides.
PAGES = (
    *READ_BY_TOOLS,
    "README.md",
    "CHANGELOG.md",
    "decks/exercises/*.*",
    "decks/source/*.*",
    "docs/*.md",
    "docs/*/*.md",
    "docs/try/*.*",
    "docs/use/*.svg",
    "docs/use/*.png",
    "docs/use/cdc6600.1",
    "bench/README.md",
    "crates/program_order/src/law.rt",
    "crates/program_order/specs/Headline.antt",
)
TOOLS = (
    "assemble", "beside", "compare", "completions", "conformance", "explore", "gallery", "image", "operate",
    "random-deck", "run-jobs", "schedule", "timeline", "trace",
)
# The tools that are shell scripts, and have no module.
OF_SHELL = ("run-jobs",)
# The parts of the package that the other tools use, besides their own modules in `commands`.
PACKAGES = (
    ".", "asking", "assembling", "comparing", "drawing", "installing", "operating", "random_decks", "shared", "timing",
)
# What isn't installed with `--without` and its name, and what an archive never has: files for fixed folders.
PARTS = ("completions", "library", "pages", "program", "tools")
NOT_PACKED = ("completions", "library")

# How a tool is run from PREFIX/bin, wherever PREFIX is moved to.
LAUNCHER = """#!/bin/sh
exec "$(dirname "$(readlink -f "$0")")/../%s/tools/%s" "$@"
"""
# The program beside the pages, where README.md runs it.
BESIDE = """#!/bin/sh
exec "$(dirname "$(readlink -f "$0")")/../../../%s" "$@"
"""


def arguments() -> argparse.Namespace:
    parser = argparse.ArgumentParser(description=__doc__, formatter_class=argparse.RawDescriptionHelpFormatter)
    parser.add_argument("--uninstall", action="store_true", help="remove what was installed there")
    parser.add_argument("--without", metavar="PART", action="append", choices=PARTS, default=[],
                        help="leave out the library, the tools, the pages, the completions, or the program with its "
                        "manual page; may be given several times")
    parser.add_argument("--tar", metavar="FILE", help="write an archive instead")
    parser.add_argument("prefix", metavar="PREFIX", nargs="?", help="the folder for all of it, as /usr/local")
    given = parser.parse_args()
    if given.tar is None and given.prefix is None:
        parser.error("PREFIX or --tar FILE is missing")
    if given.tar is not None and (given.prefix is not None or given.uninstall or given.without):
        parser.error("--tar takes no PREFIX, no --uninstall and no --without")
    return given


def executable() -> bytes:
    """The bytes of the executable that CDC6600 names, or of the one that tools/build-program builds. One without its
    proof is installed only if it is named."""
    named = named_program()
    if not named and subprocess.run([ROOT / "tools/build-program"], check=False).returncode:
        raise Fault("the program could not be built")
    program = Program(named or str(BUILT))
    if not program.run(["--version"]).printed.startswith(b"cdc6600 "):
        raise Fault(f"{program.path}: it isn't the program cdc6600")
    return Path(program.path).read_bytes()


@cache
def library() -> Path:
    """The folder of the library that CDC6600_LIBRARY names, or of the one that tools/build-library builds."""
    named = os.environ.get("CDC6600_LIBRARY")
    if not named and subprocess.run([ROOT / "tools/build-library", EMBEDDING / "out"], check=False).returncode:
        raise Fault("the library could not be built")
    return Path(named or EMBEDDING / "out")


def library_pieces(prefix: Path | None) -> Iterator[Piece]:
    """The library with its header, and what pkg-config says of it below this prefix."""
    folder = library()
    header = (folder / "cdc6600.h").read_text(encoding="utf-8")
    version = re.search(r'#define CDC6600_VERSION "(.*)"', header)
    if not version:
        raise Fault(f"{folder / 'cdc6600.h'}: it has no version")
    page = (EMBEDDING / "cdc6600.pc.in").read_text(encoding="utf-8")
    page = page.replace("@PREFIX@", re.sub(r"([ \\#$])", r"\\\1", str(prefix))).replace("@VERSION@", version[1])
    yield Piece(f"lib/{ARCHIVE}", (folder / ARCHIVE).read_bytes())
    yield Piece("include/cdc6600.h", header.encode())
    yield Piece("lib/pkgconfig/cdc6600.pc", page.encode())
    yield from documents("crates/embedding/examples/*.*", "crates/embedding/javascript/*.*")


def documents(*patterns: str) -> Iterator[Piece]:
    """Files of the repository, to stand as they stand here."""
    for pattern in patterns:
        for file in sorted(ROOT.glob(pattern)):
            mode = 0o755 if os.access(file, os.X_OK) else 0o644
            yield Piece(f"{DOCUMENTS}/{file.relative_to(ROOT)}", file.read_bytes(), mode)


def tool_pieces() -> Iterator[Piece]:
    """The tools beside what they read, a command for each, and the library that they ask, with its declarations."""
    modules = ("__init__", *(name.replace("-", "_") for name in TOOLS if name not in OF_SHELL))
    yield from documents(*(f"tools/{name}" for name in TOOLS), *(f"tools/cdc6600/{name}/*.*" for name in PACKAGES))
    yield from documents(*(f"tools/cdc6600/commands/{name}.py" for name in modules))
    yield from documents(*READ_BY_TOOLS, "crates/embedding/examples/cdc6600.py")
    yield Piece(OF_TOOLS, (library() / SHARED).read_bytes())
    for name in TOOLS:
        yield Piece(f"bin/cdc6600-{name}", (LAUNCHER % (DOCUMENTS, name)).encode(), 0o755)


def pieces(prefix: Path | None, without: Container[str]) -> Iterator[Piece]:
    """All that is installed below this prefix, except for these parts."""
    if "program" not in without:
        yield Piece(PROGRAM, executable(), 0o755)
        yield Piece("share/man/man1/cdc6600.1", (ROOT / "docs/use/cdc6600.1").read_bytes())
    if "completions" not in without:
        for shell, name in FILES.items():
            yield Piece(name, script_file(shell).read_bytes())
    if "library" not in without:
        yield from library_pieces(prefix)
    if "tools" not in without:
        yield from tool_pieces()
    if "pages" not in without:
        yield Piece(f"{DOCUMENTS}/cdc6600", (BESIDE % PROGRAM).encode(), 0o755)
        yield from documents(*PAGES)


def by_name(found: Iterable[Piece]) -> list[Piece]:
    """Pieces without those that come again."""
    return list({piece.name: piece for piece in found}.values())


def pack(name: str) -> None:
    """Writes the archive, by another name at first."""
    file = Path(name)
    why_not = why_not_written(file, lambda it: is_archive(it, LIST)) if name else "FILE is empty"
    if why_not:
        raise Fault(f"{name}: {why_not}" if name else why_not)
    if not (ROOT / TRIED).is_file():
        raise Fault(f"{TRIED} is missing: tools/check built-files --write makes it")
    Installation(file.parent, LIST).write(Piece(file.name, archive(by_name(pieces(None, NOT_PACKED)), LIST)))


def install(given: argparse.Namespace) -> None:
    """Installs all below PREFIX, or removes it."""
    if not given.prefix:
        raise Fault("PREFIX is empty")
    prefix = Path(given.prefix).absolute()
    installation = Installation(f"{os.environ.get('DESTDIR', '')}{prefix}", LIST)
    if given.uninstall:
        installation.remove()
    else:
        installation.install(by_name(pieces(prefix, given.without)))


def work() -> int:
    given = arguments()
    if given.tar is None:
        install(given)
    else:
        pack(given.tar)
    return 0


def main() -> int:
    try:
        return work()
    except Fault as fault:
        sys.exit(printable(f"tools/install: {fault}"))
    except OSError as fault:
        sys.exit(printable(f"tools/install: {fault.filename}: {fault.strerror}"))
    except KeyboardInterrupt:
        return 130

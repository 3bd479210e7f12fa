"""An archive of what is installed, to be unpacked anywhere: one folder with a first page and the list of its files.

The same files give the same bytes: they are in one order and have one time and one owner.
"""

import gzip
import io
import tarfile
import zlib
from pathlib import Path
from typing import IO, Iterable, cast

from .installation import HEAD, Piece, folders_above, list_of

FOLDER = "cdc6600"
# The beginning of 1980, the first time that every format of archives can have.
TIME = 315532800
FIRST_PAGE = """\
A proved simulator of the central processor of the Control Data 6600. There is nothing to install.

On any system, open this page in a browser and press Start:

    share/doc/cdc6600/docs/try/cdc6600.html

On Linux with an x86-64 processor and glibc 2.34 or later, in this folder:

    bin/cdc6600 run < share/doc/cdc6600/decks/two-adds.deck
    man share/man/man1/cdc6600.1

The tools also need Python 3.10 or later. Each says what it does with --help:

    bin/cdc6600-timeline share/doc/cdc6600/decks/sessions/conflicts.session

The pages call the program ./cdc6600, and the tools by names such as tools/timeline. These names work in the folder
share/doc/cdc6600. Begin there with README.md and docs/use/tutorial.md.
"""


def member(piece: Piece) -> tarfile.TarInfo:
    """What an archive says of a file."""
    found = tarfile.TarInfo(f"{FOLDER}/{piece.name}")
    found.size, found.mode, found.mtime = len(piece.content), piece.mode, TIME
    return found


def archive(pieces: Iterable[Piece], list_name: str) -> bytes:
    """The bytes of an archive of these files. The list of their names comes first; an archive is known by it."""
    ordered = sorted([*pieces, Piece("START.txt", FIRST_PAGE.encode())], key=lambda piece: piece.name)
    names, packed = [piece.name for piece in ordered], io.BytesIO()
    first = list_of(list_name, [*names, *sorted(folders_above([*names, list_name]))])
    with gzip.GzipFile("", "wb", fileobj=packed, mtime=0) as zipped:
        # The stubs of the standard library name no kind of file that a GzipFile is.
        with tarfile.open(fileobj=cast(IO[bytes], zipped), mode="w", format=tarfile.USTAR_FORMAT) as written:
            for piece in (first, *ordered):
                written.addfile(member(piece), io.BytesIO(piece.content))
    return packed.getvalue()


def is_archive(file: str | Path, list_name: str) -> bool:
    """Whether a file is such an archive: it begins with the list."""
    try:
        with tarfile.open(file, "r:gz") as found:
            first = found.next()
            is_list = first and first.isfile() and first.name == f"{FOLDER}/{list_name}"
            content = found.extractfile(first) if first and is_list else None
            return content is not None and content.read(len(HEAD)) == HEAD.encode()
    except (tarfile.TarError, gzip.BadGzipFile, EOFError, zlib.error):
        return False

"""Writes files for a user: over no file that the tool hasn't written, and through no link."""

import errno
import os
from pathlib import Path
from typing import Callable


def why_not_written(file: str | Path, is_own: Callable[[str | Path], bool]) -> str | None:
    """Why a file may not be written; none if it may. `is_own` says of a file that is there whether the tool has written
    it."""
    if os.path.lexists(file) and (os.path.islink(file) or not os.path.isfile(file) or not is_own(file)):
        return "it is there already, and isn't written over"
    return None if Path(file).parent.is_dir() else os.strerror(errno.ENOENT)


def put(file: str | Path, text: bytes) -> None:
    """Writes a file that may be written. What isn't there yet is made anew."""
    way = os.O_TRUNC if os.path.lexists(file) else os.O_CREAT | os.O_EXCL
    with open(os.open(file, os.O_WRONLY | os.O_CLOEXEC | os.O_NOFOLLOW | way, 0o666), "wb") as target:
        target.write(text)

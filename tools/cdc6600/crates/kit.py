"""The kit by which the crates are proved."""

import shutil
import subprocess
from pathlib import Path

from .table import Unreadable


def checker() -> Path:
    """The checker, which stands beside `rt`."""
    found = shutil.which("rt")
    beside = Path(found).resolve().parent / "rattle" if found else None
    if beside is None or not beside.is_file():
        raise Unreadable(
            "there is no rt with a checker `rattle` beside it: the kit isn't installed, or is laid out in another way"
        )
    return beside


def kit() -> str:
    """What `rt` says of itself: the name of the kit and the number of its logic."""
    said = subprocess.run(["rt", "version"], capture_output=True, text=True, check=False)
    if said.returncode or not said.stdout.strip():
        raise Unreadable("`rt version` doesn't say which kit this is")
    return said.stdout.strip()


def logic() -> str:
    """The number of the kit's logic."""
    return kit().split()[-1]

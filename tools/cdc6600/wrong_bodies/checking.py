"""Checks a crate with other texts, in a folder of its own: so checks run side by side, and the checkout is never
written to.
"""

import shutil
import tempfile
from dataclasses import replace
from pathlib import Path
from typing import Iterable, Mapping

from cdc6600.building.building import words_of
from cdc6600.building.library import PARTS
from cdc6600.building.processes import Ran, run
from cdc6600.crates.kit import checker
from cdc6600.crates.table import Table

from .assumed import as_proved


def checked(table: Table, crate: str, libraries: Mapping[str, Path], texts: Mapping[str, str | None],
            paths: Iterable[str]) -> Ran:
    """Checks a crate with these texts over the libraries on which it stands: the functions of these paths, or all if
    there are none. A path without a text has no file. Nothing is kept: a check that keeps something checks a few
    functions at a time, each time in a process that loads the libraries anew."""
    only = [word for path in paths for word in ("--only", path)]
    with tempfile.TemporaryDirectory(prefix=f"{crate}-") as room:
        for part in (part for part in PARTS if (table.folder(crate) / part).is_dir()):
            shutil.copytree(table.folder(crate) / part, Path(room, part))
        for path, text in texts.items():
            Path(room, path).unlink(missing_ok=True)
            if text is not None:
                Path(room, path).parent.mkdir(parents=True, exist_ok=True)
                Path(room, path).write_text(text, encoding="utf-8")
        top = "src/main.rt" if Path(room, "src/main.rt").is_file() else "src/lib.rt"
        words = [*words_of(table, crate, libraries, top), "--allow-holes", "--jobs", "1", *only]
        if "staticlib" in table.lines[crate].partition(":")[0].split():
            words += ["--crate-type", "staticlib"]
        ran = run([str(checker()), "check", *words], Path(room))
    return replace(ran, said=as_proved(ran.said))

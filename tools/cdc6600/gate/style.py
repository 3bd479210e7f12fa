"""Checks the style of all Python of the project by flake8, with the settings of .flake8, and its types by mypy, with
those of tools/mypy.ini. It prints a line for each fault, and nothing if there is none.

Run it after a change of the tools.
"""

import subprocess
from pathlib import Path

from cdc6600.checks.debian import python_with
from cdc6600.shared.program import ROOT

from .parts import tracked

SHEBANG = b"python3"


def is_python(file: Path) -> bool:
    """Whether a file is Python: by its name, or by its first line if its name has no ending."""
    if file.suffix:
        return file.suffix == ".py"
    with file.open("rb") as text:
        return SHEBANG in text.readline()


def main() -> int:
    sources = [path for path in tracked() if is_python(ROOT / path)]
    styled = [python_with("flake8"), "-m", "flake8", *sources]
    tests = [path for path in sources if path.startswith("tests/")]
    typed = ["mypy", "--config-file", "tools/mypy.ini", "--no-error-summary", "tools/cdc6600", *tests]
    return max([subprocess.run(words, cwd=ROOT, check=False).returncode for words in (styled, typed)])

"""The sizes of the crates."""

from pathlib import Path
from typing import Iterable

from cdc6600.crates.crate import Crate

HEAD = (
    "| Crate | Lines of code | Functions | Lines of tests | Lines of definitions | Lines of proof | Wrong bodies |",
    "|---|---|---|---|---|---|---|",
)


def lines_of(texts: Iterable[str]) -> int:
    """How many lines texts have."""
    return sum(text.count("\n") for text in texts)


def read(files: Iterable[Path]) -> list[str]:
    """The texts of files."""
    return [file.read_text(encoding="utf-8") for file in files]


def sizes_of(crate: Crate) -> list[int]:
    """The numbers of a crate's row."""
    tests = [source.text for source in crate.sources if source.is_test]
    code = [source.text for source in crate.code]
    functions = sum(len(source.functions) for source in crate.code)
    texts = [read(crate.files(part)) for part in ("specs", "proofs")]
    return [lines_of(code), functions, lines_of(tests), *map(lines_of, texts), len(crate.edits)]


def row_of(name: str, sizes: list[int]) -> str:
    return f"| `{name}` | {' | '.join(map(str, sizes))} |"

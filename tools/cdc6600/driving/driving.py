"""Writes the page that drives a machine in a browser: one file with the module, the examples and the sentences in it.

The page has the panel of the pages of sessions (tools/cdc6600/drawing): its frame, its look and its sentences. Its own
parts are in this folder. What it shows of the machine is what the library tells.
"""

import base64
import hashlib
import json
import re
from itertools import takewhile
from pathlib import Path
from string import Template

from cdc6600 import limits
from cdc6600.asking.states import CHANNELS, PLACES
from cdc6600.assembling.language import LANGUAGE
from cdc6600.assembling.texts import FORMS
from cdc6600.drawing import page as drawing
from cdc6600.drawing.following import WORDS
from cdc6600.drawing.sentences import SENTENCES
from cdc6600.drawing.units import NAMES
from cdc6600.drawing.values import REGISTERS
from cdc6600.shared.decks import FOLDER as DECKS
from cdc6600.shared.decks import cells_of, decks, sessions, shown_by_sessions
from cdc6600.shared.instructions import ROWS
from cdc6600.shared.program import ROOT
from cdc6600.shared.telling import sentence
from cdc6600.timing.reservations import HEADS
from cdc6600.timing.times import read_times

NAME = "cdc6600.html"
FOLDER, WRAPPER = Path(__file__).resolve().parent, ROOT / "crates/embedding/javascript/cdc6600.mjs"
SCRIPTS = ("sentences", "asking", "words", "moments", "cycles", "driven", "timeline", "assembler", "page")
EXPORTED = re.compile(r"^export (\{.*\};)?", re.MULTILINE)
# The example that is chosen first.
FIRST = "two-adds-code"


def read(file: Path) -> str:
    return file.read_text(encoding="utf-8")


def plain(cell: str) -> str:
    """What a cell of a page in Markdown says, as a sentence."""
    said = re.sub(r"\[([^]]*)\]\([^)]*\)", r"\1", cell).replace("`", "")
    return said[:1].upper() + said[1:] + "." * (not said.endswith("."))


def shown_by_decks() -> dict[str, str]:
    """What each deck shows, by its name, as decks/README.md says."""
    rows = [cells for cells in cells_of(DECKS / "README.md", "Decks") if cells[0].startswith("`")]
    return {name: cells[1] for cells in rows for name in re.findall(r"`([^`]+)`", cells[0])}


def examples() -> dict[str, list[dict[str, str]]]:
    """The examples by their kinds: the names, what they show, and their texts."""
    shown, sources = shown_by_decks(), sorted((DECKS / "source").glob("*.source"))
    ordered = sorted(decks(), key=lambda it: (it.name != FIRST, it.name))
    return {
        "Decks": [example(it.file, plain(shown[it.name])) for it in ordered],
        "Source programs": [example(file, comment(read(file))) for file in sources],
        "Sessions": [example(it.file, plain(shown_by_sessions()[it.name])) for it in sessions()],
    }


def comment(text: str) -> str:
    """The first sentence of the comment with which a source program begins, or nothing."""
    said = " ".join(line[2:] for line in takewhile(lambda line: line.startswith("* "), text.splitlines()))
    return f"{said.split('. ')[0].removesuffix('.')}." if said else ""


def example(file: Path, about: str) -> dict[str, str]:
    """An example, which is offered by the name of its file."""
    return {"name": file.name, "about": about, "text": read(file)}


def instructions() -> list[dict[str, object]]:
    """The rows of the instruction table as the assembler in the page uses them."""
    return [{"code": row.code, "text": row.text, "long": row.is_long} for row in ROWS.values()]


def forms() -> list[dict[str, str]]:
    """The forms of instructions in a source program, as the assembler in the page uses them."""
    return [{"operation": pattern(it.operation), "operands": pattern(it.operands), "shown": it.shown,
             "code": it.row.code if it.row else "", "standsFor": it.stands_for} for it in FORMS]


def pattern(compiled: re.Pattern[str]) -> str:
    """A pattern as JavaScript writes it."""
    return compiled.pattern.replace("(?P<", "(?<")


def given() -> dict[str, object]:
    """What the scripts read."""
    sizes = {"least": limits.LEAST_WORDS, "words": limits.MOST_WORDS, "package": limits.PACKAGE_WORDS,
             "shows": limits.MOST_SHOWS, "shown": WORDS}
    numbers = {"accept": PLACES, "return": CHANNELS, "bank": range(limits.BANKS)}
    return {"sentences": SENTENCES, "names": NAMES, "instructions": instructions(), "forms": forms(),
            "language": LANGUAGE, "limits": sizes, "times": read_times().cycles, "examples": examples(),
            "numbers": {kind: list(numbers[kind]) for kind in numbers}}


def script(module: bytes) -> str:
    wrapper = f"(() => {{\n{EXPORTED.sub('', read(WRAPPER))}\nreturn {{ Library, canRun }};\n}})()"
    data = json.dumps(given(), ensure_ascii=True, separators=(",", ":"))
    begins = f'const MODULE = "{base64.b64encode(module).decode()}";\nconst GIVEN = {data};\n'
    texts = [f"const {{ Library, canRun }} = {wrapper};\n", *(read(FOLDER / f"{name}.js") for name in SCRIPTS)]
    return (drawing.read("panel.js") + begins + "".join(texts)).replace("</", "<\\/")


def panel() -> str:
    """The panel's frame. The script replaces the row of the word 0 by rows for the words that a deck shows."""
    return drawing.panel_frame(dict.fromkeys([*REGISTERS, "000000"], "0"))


def page(module: bytes) -> str:
    style, text = drawing.read("page.css") + read(FOLDER / "page.css"), script(module)
    heads = "".join(f'<th scope="col">{sentence(head)}</th>' for head in HEADS)
    return Template(read(FOLDER / "page.html")).substitute(
        style=style, script=text, panel=panel(), heads=heads, style_sum=sum_of(style), script_sum=sum_of(text),
    )


def sum_of(text: str) -> str:
    """The checksum by which the policy allows a style or a script."""
    return f"sha256-{base64.b64encode(hashlib.sha256(text.encode()).digest()).decode()}"

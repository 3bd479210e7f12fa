"""The sentences of words.json, filled with what they are about. A page in a browser fills the same ones
(tools/cdc6600/driving/sentences.js)."""

import json
from pathlib import Path
from typing import Iterable, Sequence

from cdc6600.shared.telling import filled

from .following import Reservation

FILE = Path(__file__).resolve().with_name("words.json")
SENTENCES: dict[str, str] = json.loads(FILE.read_text(encoding="utf-8"))


def said(key: str, **given: str | list[str] | bool) -> str:
    """The sentence of this key."""
    return filled(SENTENCES[key], given)


def reservation(rows: Sequence[Reservation], row: int) -> str:
    """A reservation by its instruction and number."""
    return said("reservation", text=rows[row].text, number=str(row))


def reservations(rows: Sequence[Reservation], numbers: Iterable[int]) -> list[str]:
    """Several reservations."""
    return [reservation(rows, row) for row in numbers]

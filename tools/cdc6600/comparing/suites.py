"""The decks that an emulator is taken through: those of decks/, and drawn ones."""

import re
from dataclasses import dataclass
from pathlib import Path
from typing import Iterable

from cdc6600.random_decks.kinds import drawn_deck, kind_of
from cdc6600.shared.decks import decks, sessions

from .finding import Replayed
from .proved import Given, Proved


class Case:
    """A deck with a log, by its name."""

    name: str

    def text_and_log(self, proved: Proved) -> tuple[bytes, str]:
        raise NotImplementedError

    def given(self, proved: Proved) -> tuple[Given, str]:
        """The deck as it is given to an emulator, and its log."""
        text, log = self.text_and_log(proved)
        return Given(proved, self.name, text), log

    def replayed(self, proved: Proved, folder: Path) -> Replayed:
        """Its replay, with its file in this folder."""
        return Replayed(proved, *self.given(proved), Path(folder) / re.sub(r"\W+", "-", self.name))


@dataclass(frozen=True)
class StoredCase(Case):
    """A deck or a session of decks/ with its log."""

    name: str
    text: bytes
    log: str

    def text_and_log(self, proved: Proved) -> tuple[bytes, str]:
        return self.text, self.log


class DrawnCase(Case):
    """The deck that is drawn from a seed. Its log is that of a run, and its name has the command that prints it."""

    def __init__(self, seed: int) -> None:
        self.seed, self.name = seed, f"tools/random-deck {seed} ({kind_of(seed)})"

    def text_and_log(self, proved: Proved) -> tuple[bytes, str]:
        text = drawn_deck(self.seed).encode()
        return text, proved.log(text, self.name)


def stored_cases() -> list[StoredCase]:
    """The decks of decks/ that aren't refused, with their stored logs, and the sessions, whose logs have peripheral
    accesses too."""
    return [StoredCase(str(it), it.text, it.log) for it in (*decks(), *sessions()) if it.log]


def drawn_cases(seeds: Iterable[int]) -> list[DrawnCase]:
    """The drawn decks of these seeds."""
    return [DrawnCase(seed) for seed in seeds]

"""The kinds of drawn decks."""

from .branching import branches
from .draws import Draws
from .edging import edges
from .exchanging import exchanges
from .faulting import faults
from .straight import references, registers

KINDS = {kind.__name__: kind for kind in (registers, references, branches, faults, exchanges, edges)}


def kind_of(seed: int) -> str:
    """The kind that a seed has where none is named: seeds take turns."""
    return list(KINDS)[seed % len(KINDS)]


def drawn_deck(seed: int, kind: str | None = None) -> str:
    """The text of the deck that is drawn from a seed."""
    kind = kind or kind_of(seed)
    return KINDS[kind](Draws(f"{kind} {seed}"))

"""The listing of the source program from which a deck is, and the line of an instruction."""

from pathlib import Path

from cdc6600.asking.states import RUNNING, State
from cdc6600.assembling.output import numbered_listing
from cdc6600.assembling.sources import ENDING, read_source
from cdc6600.shared.ending import printable
from cdc6600.shared.reading import read_file

from .following import Fault, Session, text_of

MARK = ">"


class Listing:
    """The listing of the source program in a file, which has no fault; or of none, if the file is a deck."""

    def __init__(self, file: str | Path) -> None:
        self.source = read_source(file, read_file(file)) if str(file).endswith(ENDING) else None

    def lines(self, state: State) -> list[str]:
        """The lines in a state, that of the next instruction with a mark."""
        if not self.source:
            return ["The deck is from no source program."]
        at = self.next_line(state)
        listing = numbered_listing(self.source[0])
        return [printable(f"{MARK if number == at else ' '} {line}".expandtabs()) for number, line in listing]

    def next_line(self, state: State) -> int | None:
        """The number of the next instruction's line; none if the machine is halted, or has another program or none."""
        if not self.source or state.halt != RUNNING or state.now.ra != self.source[1].reference:
            return None
        return self.source[0].line_at(state.now.p, state.now.parcel)

    def next_text(self, state: State) -> str:
        """The line of the next instruction in a state, with its number; nothing if it is in no line, as a pass that
        fills a word."""
        at = self.next_line(state)
        return f"line {at}: {printable(' '.join(self.source[0].texts[at - 1].split()))}" if self.source and at else ""


def listing_of(file: str | Path, session: Session) -> Listing:
    """The listing of the source program in a file, from which the deck of a session is.

    Raises Fault if it isn't from that."""
    if not str(file).endswith(ENDING):
        raise Fault(file, f"its name doesn't end with {ENDING}")
    if Session(file, text_of(file)).deck != session.deck:
        raise Fault(file, f"its deck isn't that of {session.file}")
    return Listing(file)

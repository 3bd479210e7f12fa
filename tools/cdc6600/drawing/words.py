"""Says in words what an event did, or why it was refused, by the sentences of words.json.

Values are those of the registers and words at the event. One that no register has yet is that which `replay` prints: by
the program's theorem it is the machine's.
"""

from typing import Callable

from cdc6600.asking.states import OUT_OF_RANGE, RUNNING, Refusal, State, part_of
from cdc6600.limits import BANKS
from cdc6600.shared.telling import sentence

from .following import plain
from .refusing import why
from .retracing import Retracing
from .sentences import reservation, reservations, said
from .units import NAMES


class Words:
    """What is said of the events of a session that is followed, with the states before and after each."""

    def __init__(self, retracing: Retracing) -> None:
        self.retracing, self.states, self.following = retracing, retracing.states, retracing.following
        self.replays, self.rows = self.following.replays, self.following.rows

    def told(self, n: int) -> str:
        """What is said of the event n, from 0, and that it is refused, if it is."""
        return said("refused", why=self.said(n)) if self.following.is_refused(n) else self.said(n)

    def said(self, n: int) -> str:
        """What is said of the event n, from 0."""
        event, answer = self.following.session.events[n], self.following.answers[n]
        kind, *fields = event.split(" ")
        if self.following.is_refused(n):
            return sentence(self.refused(n, event, answer))
        tell: dict[str, Callable[..., str]] = {
            "issue": self.issue, "read": self.read, "finish": self.finish, "store": self.store, "accept": self.accept,
            "return": self.load_return, "bank": self.bank, "ask": self.ask, "exchange": self.exchange,
            "ppread": self.peripheral_read, "ppwrite": self.peripheral_write, "end": self.end, "drain": self.drain,
        }
        return sentence(tell[kind](n, *fields))

    def refused(self, n: int, event: str, answer: str) -> str:
        """Why an event is refused. Where the machine would say something else, the answer alone is told."""
        expected = self.retracing.refusals[n]
        refusal = expected if expected and expected.answer == answer else Refusal(answer)
        return why(self.retracing.view(n), self.following.session.core, event, refusal)

    def about(self, row: int) -> str:
        return reservation(self.rows, row)

    @staticmethod
    def position(state: State) -> str:
        """Where the program is in a state."""
        address, parcel = state.position
        return said("position", address=address, parcel=parcel if int(parcel) else "")

    def issue(self, n: int) -> str:
        """An issue, to a unit or without one."""
        answered, after = self.following.answers[n].split(" "), self.states[n + 1]
        if len(answered) == 1:
            return f"{self.issue_alone(n)}{self.source(n)}"
        row = int(answered[2])
        it, awaited = self.rows[row], after.awaited(row)
        issued = said(
            "issue", text=it.text, unit=NAMES[it.unit], number=str(row), results=after.results(row),
            awaited=[register for register, _ in awaited], branch=it.unit == "branch",
            producers=[str(producer) for producer in sorted({producer for _, producer in awaited})],
        )
        return f"{issued}{self.source(n)}"

    def source(self, n: int) -> str:
        """The line of the source program from which the instruction of an issue is, if that is known."""
        text = self.following.listing and self.following.listing.next_text(self.states[n])
        return said("source", text=text) if text else ""

    def issue_alone(self, n: int) -> str:
        """An issue that reserves no unit: a pass, or one that halts the machine."""
        halt, text = self.states[n + 1].halt, self.states[n].next
        if halt == RUNNING:
            return said("issue of a pass", text=text)
        return said("issue that halts", what=self.halting(n, text), halt=halt)

    def halting(self, n: int, text: str) -> str:
        """The issue that halts the machine."""
        if text == OUT_OF_RANGE:
            return said("issue out of range", position=self.position(self.states[n]))
        if text.startswith("?straddle"):
            return said("issue of a straddle")
        return said("issue of an opcode", opcode=text[1:]) if text[0] == "?" else said("issue of a stop", text=text)

    def read(self, n: int, unit: str) -> str:
        before = self.states[n]
        row = before.units[unit]
        values = [said("is", register=register, value=before.register(register)) for register in before.operands(row)]
        return said("read" if values else "read of nothing", unit=NAMES[unit], it=self.about(row), values=values)

    def finish(self, n: int, unit: str) -> str:
        row = self.states[n].units[unit]
        if unit == "branch":
            return said("finish of a branch", unit=NAMES[unit], it=self.about(row))
        register = next(iter(self.states[n].results(row)), "")
        value = self.replays.register(self.rows[row].after, register) if register else ""
        return said("finish", unit=NAMES[unit], it=self.about(row), register=register, value=value)

    def store(self, n: int, unit: str) -> str:
        before, after = self.states[n : n + 2]
        row = before.units[unit]
        becomes = [said("becomes", register=register, value=after.register(register))
                   for register in before.results(row)[:1]]
        becomes += [said("goes on", position=self.position(after))] * (unit == "branch")
        becomes.append(said("free", unit=NAMES[unit]))
        return said("store", becomes=becomes, reference=self.entered(n, row) if self.rows[row].refers else "")

    def entered(self, n: int, row: int) -> str:
        """What a reference does at the store event of its unit."""
        after, channel = self.states[n + 1], str(self.rows[row].channel or "")
        place = part_of(after.places, row)
        if place is None:
            return said("reference out of range", channel=channel, fault=after.fault == row)
        return said("reference", channel=channel, word=self.word(after.addresses[row]), place=str(place))

    @staticmethod
    def word(address: int) -> str:
        """The word of a reference, with its bank."""
        return said("word", address=f"{address:o}", bank=str(address % BANKS))  # E13

    def accept(self, n: int, place: str) -> str:
        row = self.states[n].places[int(place)]
        it, address = self.rows[row], self.states[n].addresses[row]
        if it.channel:
            effect = {"loaded": plain(self.states[n + 1].loaded[row]), "channel": str(it.channel)}
        else:
            is_link = it.unit == "branch"
            effect = {"stored": said("link") if is_link else self.replays.register(it.after, f"X{it.text[2]}")}
        return said("accept", bank=str(address % BANKS), it=self.about(row), address=f"{address:o}",  # E13
                    **effect)

    def load_return(self, n: int, channel: str) -> str:
        row = self.states[n].channels[int(channel)]
        register = f"X{int(channel)}"
        return said("return", it=self.about(row), register=register, value=self.states[n + 1].register(register))

    def bank(self, _n: int, bank: str) -> str:
        return said("bank", bank=str(int(bank)))

    def ask(self, n: int, _package: str) -> str:
        return said("ask", package=self.states[n + 1].asked, runs=self.states[n].halt == RUNNING)

    def exchange(self, n: int) -> str:
        after = self.states[n + 1]
        return said("exchange", package=self.states[n].asked, position=self.position(after),
                    reference=f"{after.now.ra:o}", length=f"{after.now.fl:o}")

    def peripheral_read(self, n: int, address: str) -> str:
        return said("ppread", address=plain(address), word=plain(self.following.answers[n].split(" ")[1]))

    def peripheral_write(self, _n: int, address: str, word: str) -> str:
        return said("ppwrite", address=plain(address), word=plain(word))

    def end(self, n: int) -> str:
        return said("end", pending=reservations(self.rows, self.states[n].pending))

    def drain(self, n: int) -> str:
        return said("drain", numbers=[str(row) for row in self.states[n].pending])

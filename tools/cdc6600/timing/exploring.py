"""Goes through every order of events of a small program.

A state is what the parts of the machine have. All orders that lead to a state have made the same number of events, so
the states are in layers. An order ends where no event is accepted any more: the program has stopped or used up its
budget, everything is carried out, and all banks are free. A machine that is kept says which events are accepted and to
which states they lead; confirming.py has the program confirm it.
"""

import time
from dataclasses import dataclass, field
from typing import Iterator

from cdc6600.asking.machine import Machine
from cdc6600.asking.states import RUNNING, State
from cdc6600.comparing.running import Progress
from cdc6600.drawing.following import Fault, Replays, Reservation, Session
from cdc6600.limits import BANKS
from cdc6600.shared.program import Program

from .clock import after, is_taken
from .fronts import Front, Moment
from .requests import START
from .times import Times

# The parts that tell a state from others with as many instructions issued.
TELLING = ("units", "hopper", "channels", "banks", "request")
# How many words the memories of the machines have together that wait in the states of a layer.
MOST_WORDS = 1 << 24
# What helps if there are many states, and the seconds after which it is told.
FEWER, SOON = "--budget 12 looks at the first 12 instructions only", 1


@dataclass(eq=False)
class Node:
    """A state: its number and layer, how many instructions were issued, how many orders lead to it, the node and the
    event of the first of them, the states that events lead to, and the earliest and the latest moments at which orders
    come to it. A machine may wait in it."""

    number: int
    layer: int
    state: State
    issued: int = 0
    orders: int = 0
    before: "Node | None" = None
    event: str = ""
    edges: dict[str, "Node"] = field(default_factory=dict)
    refusals: dict[str, str] = field(default_factory=dict)
    earliest: Front = field(default_factory=lambda: Front(False))
    latest: Front = field(default_factory=lambda: Front(True))
    machine: Machine | None = None

    @property
    def events(self) -> list[str]:
        """The events of the first order that leads to it."""
        found, node = list[str](), self
        while node.before:
            found.append(node.event)
            node = node.before
        return found[::-1]

    @property
    def key(self) -> tuple[object, ...]:
        """What tells it from other states."""
        state = self.state
        return self.issued, state.halt, state.fault, *(state.printed[part] for part in TELLING)


class DeckProgram:
    """The instructions of a deck in their order. `rows` has the reservations that they make."""

    def __init__(self, program: Program, session: Session, times: Times, budget: int) -> None:
        self.times, self.budget = times, budget
        self.session = Session(session.file, "\n".join([*session.deck, "end", ""]))
        self.replays = Replays(program, self.session, session.file)
        self.start = next(f"{int(it[1], 8):o}" for it in map(START.fullmatch, session.deck) if it)
        self.rows = [Reservation("", "", "", "")]

    def log(self, issued: int) -> str:
        """The log after the exchange and so many instructions."""
        return f"E{self.start}" + (f" I{issued}" if issued else "")

    def add(self, number: int, unit: str, text: str, issued: int) -> None:
        """Adds the reservation of this number, made by the instruction that is issued after so many others, if it isn't
        known."""
        if number == len(self.rows):
            it = Reservation(unit, text, self.log(issued), self.log(issued + 1))
            it.cycles = self.times.unit(unit, unit == "branch" and is_taken(self.replays, it.before, it.after))
            self.rows.append(it)


class Exploration:
    """All states and events of a program. `layers` has the states, and `ends` those without a further event."""

    def __init__(self, program: Program, session: Session, times: Times, budget: int, most: int) -> None:
        """Raises Fault where there are more states than `most`."""
        self.program, self.most, self.times = DeckProgram(program, session, times, budget), most, times
        self.machine, self.spare = self.program.session.machine(), list[Machine]()
        root = Node(0, 0, self.machine.state, orders=1)
        for front in (root.earliest, root.latest):
            front.add(Moment(0, {"issue": 0}))
        self.layers, self.ends, self.count = [[root]], list[Node](), 1
        begun, progress = time.monotonic(), Progress()
        try:
            while self.layers[-1]:
                self.layers.append(self.next_layer(self.layers[-1]))
                if time.monotonic() - begun > SOON:
                    progress.show(f"{self.count} states so far; {FEWER}")
        finally:
            progress.show("")
        self.layers.pop()

    @property
    def nodes(self) -> list[Node]:
        return [node for layer in self.layers for node in layer]

    @property
    def banks(self) -> list[int]:
        """The banks to which the program refers."""
        return sorted({it.address % BANKS for it in self.program.rows[1:] if it.address is not None})  # E13

    @property
    def orders(self) -> int:
        return sum(node.orders for node in self.ends)

    def next_layer(self, layer: list[Node]) -> list[Node]:
        """The states after one event more."""
        found: dict[tuple[object, ...], Node] = {}
        for node in layer:
            for event in self.accepted(node):
                child = self.made(node, event)
                child = found.get(child.key) or self.add(found, child)
                node.edges[event] = child
                child.orders += node.orders
                self.spread(node, event, child)
            if not node.edges:
                self.ends.append(node)
        return list(found.values())

    def add(self, found: dict[tuple[object, ...], Node], node: Node) -> Node:
        """Adds a state that wasn't found before."""
        if self.count == self.most:
            many = f"it has more than {self.most} states"
            raise Fault(self.program.session.file, f"{many}; {FEWER}, --states N allows more")
        node.number = self.count
        self.count += 1
        found[node.key] = node
        if len(found) * self.program.session.core <= MOST_WORDS:
            node.machine = self.machine
            self.machine = self.spare.pop() if self.spare else self.program.session.machine()
        return node

    # ---- the events ----

    def machine_at(self, node: Node) -> Machine:
        """The machine in the state of a node."""
        if node.machine:
            self.spare.append(self.machine)
            self.machine, node.machine = node.machine, None
        elif self.machine.state is not node.state:
            self.machine.restart(node.events, node.state)
        return self.machine

    def accepted(self, node: Node) -> list[str]:
        """The events that parts have to do in a state, and that are accepted. The refusals of the others are kept."""
        machine, found = self.machine_at(node), []
        for event in self.candidates(node):
            refusal = machine.judge(event)
            if refusal:
                node.refusals[event] = refusal.answer
            # E3, which a machine with the default budget doesn't have.
            elif event != "issue" or node.issued < self.program.budget:
                found.append(event)
        return found

    def candidates(self, node: Node) -> Iterator[str]:
        """The events that parts have to do."""
        state = node.state
        if state.halt != RUNNING and not node.issued:
            yield "exchange" if state.asked else f"ask {self.program.start}"
            return
        yield "issue"
        yield from (state.next_of(row) for row in state.units.values())
        yield from (f"accept {place}" for place in state.places)
        yield from (f"return {channel}" for channel, row in state.channels.items() if row in state.loaded)
        yield from (f"bank {bank}" for bank in state.banks)

    def made(self, node: Node, event: str) -> Node:
        """The node to which an event leads."""
        machine = self.machine_at(node)
        answer, row = machine.make(event).split(" "), node.state.about(event)
        state = machine.state
        if len(answer) > 1:
            self.program.add(int(answer[2]), answer[1], state.texts[int(answer[2])], node.issued)
        elif event.startswith("store"):
            self.program.rows[row].refer(row, state)
        return Node(0, node.layer + 1, state, node.issued + (event == "issue"), before=node, event=event)

    # ---- the cycles ----

    def spread(self, node: Node, event: str, child: Node) -> None:
        """Takes the moments of a state on by an event."""
        for mine, theirs in ((node.earliest, child.earliest), (node.latest, child.latest)):
            for moment in mine.moments:
                theirs.add(self.later(moment, node.state, event, child.state))

    def later(self, moment: Moment, before: State, event: str, state: State) -> Moment:
        """The moment after an event that leads from a state to another one."""
        ready = dict(moment.ready)
        kind, row = event.split(" ")[0], before.about(event)
        key = {"issue": "issue", "exchange": "issue", "ask": "ask"}.get(kind, row or event)
        now = max(moment.now, ready.pop(key, 0))
        if kind == "exchange":
            ready["issue"] = now + self.times["exchange"]
        elif kind == "issue":
            ready["issue"] = now + self.times.issue(before.next)
            ready |= dict.fromkeys(state.phases.keys() - before.phases.keys(), now)
        elif row:
            it = self.program.rows[row]
            following, cycles = after(self.times, it, kind)
            if following:
                ready[row] = now + cycles
            if kind == "accept":
                ready[f"bank {before.addresses[row] % BANKS}"] = now + self.times["bank"]  # E13
        end = moment.end if kind == "bank" else max(moment.end, now, ready["issue"] if key == "issue" else 0)
        return Moment(now, ready, end, moment, event)

    def extremes(self) -> tuple[Moment, Moment]:
        """The moments at which a shortest and a longest order end. Freed banks don't count."""
        earliest = [moment for node in self.ends for moment in node.earliest.moments]
        latest = [moment for node in self.ends for moment in node.latest.moments]
        return min(earliest, key=lambda it: it.end), max(latest, key=lambda it: it.end)

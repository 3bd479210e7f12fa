"""Has the machine confirm what was explored: sessions that make each event of each state, and try all others there."""

from dataclasses import dataclass, field

from cdc6600.asking.states import CHANNELS, PLACES
from cdc6600.drawing.following import Fault, Session
from cdc6600.drawing.units import UNITS
from cdc6600.shared.program import Program

from .exploring import Exploration, Node

TRIED = [f"{event} {unit}" for unit in UNITS for event in ("read", "finish", "store")]
TRIED += [f"accept {place}" for place in PLACES] + [f"return {channel}" for channel in CHANNELS]
END = "end"
# In a graph of more states than this no best order is looked for.
LARGE = 5000


@dataclass
class Confirmed:
    """What the machine confirmed: the sessions, the events that it made and that it refused, and the dumps by logs."""

    sessions: int = 0
    made: int = 0
    refused: int = 0
    dumps: dict[str, str] = field(default_factory=dict)


class Confirmation:
    """Goes through an exploration with the machine, by at most so many sessions."""

    def __init__(self, program: Program, session: Session, exploration: Exploration, most: int) -> None:
        self.program, self.exploration, self.most = program, exploration, most
        self.deck = session.text.split("\n")[: session.deck_end]
        self.covered, self.seen = set[tuple[Node, str]](), set[Node]()
        self.nodes = exploration.nodes[::-1]
        self.found = Confirmed()

    def run(self) -> Confirmed:
        """What the machine confirms.

        Raises Fault where it answers otherwise than the exploration says."""
        path = self.path()
        while path and self.found.sessions < self.most:
            self.confirm(path)
            path = self.path()
        return self.found

    def path(self) -> list[tuple[Node, str, Node]]:
        """An order of events up to an end that makes events which aren't confirmed yet; none if there is none. In a
        small graph it makes as many of them as possible."""
        if len(self.nodes) > LARGE:
            return self.walk()
        gains, chosen = dict[Node, int](), dict[Node, str]()
        for node in self.nodes:
            found = [(gains[child] + ((node, event) not in self.covered), event) for event, child in node.edges.items()]
            gains[node], chosen[node] = max(found, key=lambda it: it[0], default=(0, ""))
        node, path = self.exploration.layers[0][0], list[tuple[Node, str, Node]]()
        while gains[self.exploration.layers[0][0]] and node.edges:
            path.append((node, chosen[node], node.edges[chosen[node]]))
            node = path[-1][2]
        return path

    def walk(self) -> list[tuple[Node, str, Node]]:
        """An order that makes, in each state, the first event that isn't confirmed yet, or the last event of all."""
        node, path = self.exploration.layers[0][0], list[tuple[Node, str, Node]]()
        while node.edges:
            left = (event for event in node.edges if (node, event) not in self.covered)
            event = next(left, None) or list(node.edges)[-1]
            path.append((node, event, node.edges[event]))
            node = path[-1][2]
        return path if any((node, event) not in self.covered for node, event, _ in path) else []

    def probes(self, node: Node) -> list[tuple[str, str]]:
        """The events that are refused in a state, each with its answer."""
        machine = self.exploration.machine_at(node)
        banks = [f"bank {bank}" for bank in self.exploration.banks]
        events = dict.fromkeys([*TRIED, *banks, *node.refusals, "exchange"])
        refusals = [(event, machine.judge(event)) for event in events if event not in node.edges]
        return [(event, refusal.answer) for event, refusal in refusals if refusal]

    def confirm(self, path: list[tuple[Node, str, Node]]) -> None:
        """Makes an order, and tries the refused events of each state that wasn't seen yet."""
        lines, chosen = list[tuple[str, str]](), {node: event for node, event, _ in path}
        for node in [*(it[0] for it in path), path[-1][2]]:
            lines += self.probes(node) if node not in self.seen else []
            self.seen.add(node)
            lines += [(chosen[node], "ok")] if node in chosen else []
        log = self.exploration.program.log(path[-1][2].issued)
        self.compare(lines, log)
        self.found.sessions += 1
        self.found.refused += sum(answer != "ok" for _, answer in lines)
        self.covered.update((node, event) for node, event, _ in path)
        self.found.made = len(self.covered)

    def compare(self, lines: list[tuple[str, str]], log: str) -> None:
        """Compares the answers and the dump of a session with what they have to be."""
        text = "\n".join([*self.deck, *(event for event, _ in lines), END, ""])
        came = self.program.run(["events"], text.encode("latin-1")).printed.decode("latin-1").split("\n")
        for (event, answer), line in zip(lines, came):
            if line != answer and not (answer == "ok" and line.startswith("ok ")):
                raise Fault(self.program.path, f"it answers {line} to {event}, where the rules say {answer}")
        dump = "\n".join(came[len(lines) :])
        if log not in self.found.dumps:
            deck = "\n".join([*self.deck, ""]).encode("latin-1")
            self.found.dumps[log] = self.program.replay(log, deck).printed.decode("latin-1")
        if dump != self.found.dumps[log]:
            raise Fault(self.program.path, f"after the log {log} an order of events has another dump than replay")

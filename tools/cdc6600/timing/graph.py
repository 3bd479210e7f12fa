"""Writes an exploration as a page of HTML that needs nothing beside itself: the graph of the states, and what each one
has. graph.html is the frame, graph.js goes from state to state, and the style is that of the pages of sessions."""

import html
import json
import xml.etree.ElementTree as ET
from pathlib import Path
from string import Template
from typing import Iterable, Mapping

from cdc6600.drawing.forms import SVG
from cdc6600.drawing.page import read
from cdc6600.drawing.values import REGISTERS
from cdc6600.shared.telling import plural

from .exploring import Exploration, Node
from .fronts import Moment

FOLDER = Path(__file__).resolve().parent
# The columns and rows of the graph in pixels, and up to how many states it is drawn.
COLUMN, ROW, EDGE, RADIUS, MOST = 34, 16, 14, 5, 2000


def tag(name: str) -> str:
    """A name of SVG."""
    return f"{{{SVG}}}{name}"


class Graph:
    """The page of an exploration. `report` has its lines as text."""

    def __init__(self, exploration: Exploration, title: str, report: Iterable[str]) -> None:
        self.exploration, self.title, self.report = exploration, title, report
        self.rows = max(map(len, exploration.layers))
        self.height = ROW * (self.rows - 1) + 2 * EDGE
        self.width = COLUMN * (len(exploration.layers) - 1) + 2 * EDGE
        shortest, longest = exploration.extremes()
        self.paths = {"longest": self.on_path(longest), "shortest": self.on_path(shortest)}

    def on_path(self, moment: Moment) -> list[int]:
        """The states on the way to a moment, by number."""
        node, found = self.exploration.layers[0][0], []
        for event in moment.events:
            found.append(node.number)
            node = node.edges[event]
        return [*found, node.number]

    def places(self) -> dict[int, tuple[int, float]]:
        """The position of each state in the picture, by number: its layer, and the middle of its parents' rows."""
        found = {}
        for layer in self.exploration.layers:
            begin = EDGE + ROW * (self.rows - len(layer)) / 2
            for row, node in enumerate(layer):
                found[node.number] = EDGE + COLUMN * node.layer, begin + ROW * row
        return found

    def picture(self) -> str:
        """The graph: a dot for each state, a line for each event, and lines for the two orders."""
        ET.register_namespace("", SVG)
        size = {"width": str(self.width), "height": str(self.height), "viewBox": f"0 0 {self.width} {self.height}"}
        root = ET.Element(tag("svg"), {**size, "role": "img", "aria-labelledby": "graph-name", "id": "graph"})
        ET.SubElement(root, tag("title"), {"id": "graph-name"}).text = (
            f"The states of {self.title}, a column for each number of events. The lists below say the same in words.")
        places, nodes = self.places(), self.exploration.nodes
        lines = [(places[node.number], places[child.number]) for node in nodes for child in node.edges.values()]
        drawn = " ".join(f"M{x:g} {y:g}L{u:g} {v:g}" for (x, y), (u, v) in lines)
        ET.SubElement(root, tag("path"), {"d": drawn, "class": "events"})
        for name, path in self.paths.items():
            points = " ".join(f"{x:g},{y:g}" for x, y in (places[number] for number in path))
            ET.SubElement(root, tag("polyline"), {"points": points, "class": name})
        for node in nodes:
            x, y = places[node.number]
            kind = "state" if node.edges else "state last"
            at = {"cx": f"{x:g}", "cy": f"{y:g}", "r": str(RADIUS), "class": kind, "id": f"state-{node.number}"}
            ET.SubElement(root, tag("circle"), at)
        return ET.tostring(root, encoding="unicode")

    def data(self) -> list[dict[str, object]]:
        """What the script reads of each state, by number."""
        return [{
            "layer": node.layer, "orders": str(node.orders),
            "has": [*self.holdings(node), self.values(node.state.values)],
            "edges": [[event, child.number] for event, child in node.edges.items()],
            "refused": list(node.refusals.items()),
        } for node in self.exploration.nodes]

    def holdings(self, node: Node) -> list[str]:
        """What the parts have in a state, a sentence for each."""
        state, rows = node.state, self.exploration.program.rows
        named = {row: f"{it.text} ({row})" for row, it in enumerate(rows) if row}
        found = [f"{unit}: {named[row]}, {state.phases[row]}" for unit, row in sorted(state.units.items())]
        found += [f"hopper {place}: {named[row]}" for place, row in sorted(state.places.items())]
        found += [f"channel {channel}: {named[row]}, {'loaded' if row in state.loaded else 'waiting'}"
                  for channel, row in sorted(state.channels.items())]
        found += [f"bank {bank} is busy" for bank in sorted(state.banks)]
        issued = f"{node.issued} {plural(range(node.issued), 'instruction', 'instructions')} issued"
        halt = "fault flag set" if state.fault else "running" if state.halt == "running" else f"halted: {state.halt}"
        return [f"{issued}; {halt}", *found]

    @staticmethod
    def values(values: Mapping[str, str]) -> str:
        """The registers of a state that aren't zero, with their octal values."""
        found = [f"{name} {values[name].lstrip('0')}" for name in REGISTERS if int(values[name], 8)]
        return f"registers, in octal: {', '.join([*found, 'all others 0'])}"

    def layers(self) -> str:
        """The rows of the table of layers."""
        rows = enumerate(self.exploration.layers)
        return "".join(
            f"<tr><th scope=\"row\">{number}</th><td>{len(layer)}</td><td>{sum(len(node.edges) for node in layer)}</td>"
            f"</tr>\n" for number, layer in rows)

    def text(self) -> str:
        """The page. The graph of very many states isn't drawn."""
        is_drawn = self.exploration.count <= MOST
        told = f"The graph of more than {MOST} states isn't drawn."
        return Template((FOLDER / "graph.html").read_text(encoding="utf-8")).substitute(
            title=html.escape(self.title), style=read("page.css"),
            script=(FOLDER / "graph.js").read_text(encoding="utf-8") if is_drawn else "",
            report="".join(f"<li>{html.escape(line)}</li>\n" for line in self.report), layers=self.layers(),
            picture=self.picture() if is_drawn else f"<p>{told}</p>",
            data=json.dumps(self.data()).replace("<", "\\u003c") if is_drawn else "[]",
        )

"""What came of an emulator on many decks: in lines, as JSON, and as the XML of JUnit."""

import json
import math
import re
from dataclasses import asdict, dataclass
from typing import Iterator, Sequence
from xml.etree import ElementTree

from .finding import Comparison, Found
from .reports import Report

SAME, DIFFERS, SLOW = "same", "differs", "too slow"
# The statuses of a tool: all decks agree, some differ, and none differs but some are too slow to tell.
ALL_SAME, SOME_DIFFER, SOME_SLOW = 0, 1, 3


@dataclass(frozen=True)
class Result:
    """What came of one deck: its name, the steps of its log, and a verdict. A deck that isn't the same also has the
    step, the kind of step by which decks are grouped, and a line for the user."""

    name: str
    steps: int
    verdict: str = SAME
    step: int | None = None
    kind: str = ""
    line: str = ""

    @property
    def told(self) -> str:
        """The line for the user, with the deck's name."""
        return f"{self.name}: {f'{SLOW}: ' if self.verdict == SLOW else ''}{self.line}"


def slow(comparison: Comparison, found: Found) -> Result:
    """The result of an emulator that doesn't end in time."""
    steps, limit = found.step, found.outcome.limit
    line = f"{steps} steps don't end in {limit:g} seconds, fewer than {math.ceil(steps / limit)} steps a second"
    if comparison.last_ended:
        ended, seconds = comparison.last_ended
        line += f"; {ended} steps took {seconds:.2f} seconds"
    return Result(comparison.replayed.given.name, len(comparison.steps), SLOW, steps, SLOW, line)


def differing(report: Report) -> Result:
    """The result that a report tells of."""
    return Result(report.name, len(report.steps), DIFFERS, report.step, report.kind, report.line)


class Results:
    """The results of all decks, of which so many are stored ones, and what they cost."""

    def __init__(self, results: Sequence[Result], stored: int, calls: int, seconds: float) -> None:
        self.results, self.stored, self.calls, self.seconds = results, stored, calls, seconds

    def of(self, verdict: str) -> list[Result]:
        """The results with a verdict."""
        return [it for it in self.results if it.verdict == verdict]

    @property
    def groups(self) -> dict[str, list[Result]]:
        """The results that aren't the same, by the kind of their step."""
        groups: dict[str, list[Result]] = {}
        for it in [*self.of(DIFFERS), *self.of(SLOW)]:
            groups.setdefault(it.kind, []).append(it)
        return groups

    @property
    def status(self) -> int:
        if self.of(DIFFERS):
            return SOME_DIFFER
        return SOME_SLOW if self.of(SLOW) else ALL_SAME

    @property
    def counts(self) -> str:
        slow_ones = len(self.of(SLOW))
        decks = f"{self.stored} decks of decks/ and {len(self.results) - self.stored} drawn ones"
        return f"{decks}: {len(self.of(DIFFERS)) or 'none'} differ" + (f", {slow_ones} too slow" if slow_ones else "")

    def lines(self, has_all: bool) -> Iterator[str]:
        """A line for each group, or for each deck that isn't the same, and the line with the counts."""
        if has_all:
            yield from (it.told for it in self.results if it.verdict != SAME)
        else:
            for kind, group in self.groups.items():
                decks = f"{len(group)} deck{'s' * (len(group) > 1)}"
                yield f"{kind}: {decks}, first {group[0].name}: {group[0].line}"
        yield self.counts

    def as_json(self, command: str) -> str:
        groups = [{"kind": kind, "decks": [it.name for it in group]} for kind, group in self.groups.items()]
        whole = {
            "command": command, "status": self.status, "calls": self.calls, "seconds": round(self.seconds, 3),
            "differ": len(self.of(DIFFERS)), "slow": len(self.of(SLOW)), "groups": groups,
            "decks": [asdict(it) for it in self.results],
        }
        return json.dumps(whole, indent=1)

    def as_junit(self, command: str) -> bytes:
        """All of it as the XML that JUnit writes: a deck that differs is a failure, one that is too slow an error."""
        counts = {"tests": len(self.results), "failures": len(self.of(DIFFERS)), "errors": len(self.of(SLOW))}
        numbers = {name: str(count) for name, count in counts.items()}
        suite = ElementTree.Element("testsuite", {"name": plain(command), "time": f"{self.seconds:.3f}", **numbers})
        for it in self.results:
            case = ElementTree.SubElement(suite, "testcase", classname="conformance", name=plain(it.name))
            if it.verdict != SAME:
                word = "failure" if it.verdict == DIFFERS else "error"
                ElementTree.SubElement(case, word, type=plain(it.kind), message=plain(it.line))
        ElementTree.indent(suite)
        return bytes(ElementTree.tostring(suite, encoding="utf-8", xml_declaration=True)) + b"\n"


def plain(text: str) -> str:
    """A text without the characters that XML can't have."""
    return re.sub(r"[^\x20-\ud7ff\ue000-\ufffd\U00010000-\U0010ffff]", "?", text)

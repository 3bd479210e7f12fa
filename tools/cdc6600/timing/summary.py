"""What is printed of a schedule and of an exploration."""

import sys
from typing import Mapping

from cdc6600.drawing.following import Fault
from cdc6600.shared.telling import plural

from .clock import Clock
from .confirming import Confirmed
from .exploring import Exploration
from .scheduling import Schedule
from .totals import Totals
from .waits import CAUSES

WIDTH = 34


def rows(work: int, waits: Mapping[str, int]) -> list[str]:
    """A line for the work and each cause of waits, the causes in the order of the refusals' numbers."""
    found = [("work", work)] + [(f"waits: {CAUSES[code]}", waits[code]) for code in CAUSES if waits[code]]
    return [f"  {name:<{WIDTH}}{cycles:>9}" for name, cycles in found]


def summary(schedule: Schedule, clock: Clock) -> str:
    """The summary of a schedule that was made, with the clock of its session."""
    it, of_parts = Totals(clock, schedule.log.text), sum(it.ended - it.begun for it in clock.parts if it.ended)
    lines = [
        f"policy {schedule.policy}: {it.issued} instructions in {it.cycles} minor cycles, "
        f"{it.rate} instructions a cycle",
        f"without the first exchange: {it.running} minor cycles, {it.running_rate} instructions a cycle",
        f"the issuing position, {it.cycles} cycles:", *rows(clock.issuing.work, it.waits[0]),
        f"the reservations, {len(clock.parts)} with {of_parts} cycles in all:",
        *rows(sum(part.work for part in clock.parts), it.waits[1]),
    ]
    return "".join(f"{line}\n" for line in lines)


def put(text: str) -> None:
    """Prints a text as it is.

    Raises Fault where standard output is closed."""
    if sys.stdout is None:
        raise Fault("standard output", "it is closed")
    sys.stdout.write(text)


def counted(number: int, one: str, several: str) -> str:
    return f"{number} {plural(range(number), one, several)}"


def report(exploration: Exploration, confirmed: Confirmed) -> list[str]:
    """The lines of an exploration that the machine has confirmed."""
    events = sum(len(node.edges) for node in exploration.nodes)
    shortest, longest = exploration.extremes()
    logs = [exploration.program.log(node.issued) for node in exploration.ends]
    lines = [
        f"{counted(exploration.count, 'state', 'states')}, {counted(events, 'event', 'events')} between them",
        f"schedules: {exploration.orders}",
        f"the shortest schedule takes {shortest.end} minor cycles, the longest {longest.end}",
    ]
    for log in dict.fromkeys(logs):
        dumps = "one dump, that of replay" if log in confirmed.dumps else "no dump looked at"
        lines.append(f"the log {log}: {counted(logs.count(log), 'last state', 'last states')}, {dumps}")
    made = f"{confirmed.made} of {events} events in {counted(confirmed.sessions, 'session', 'sessions')}"
    lines.append(f"the machine made {made}, and refused {confirmed.refused} others as the rules say")
    lines.append("this is a look at one program; that it holds for all is the theorem in README.md")
    return lines

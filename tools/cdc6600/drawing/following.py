"""Follows a session's events and their answers, and puts a mark for each event into the row of its reservation.

A machine that is kept makes the events that were made, and has to answer each alike; at the end the log that the
drawing leads to has to lead to the same dump. What the parts of the machine have is asked after each event.
"""

import re
from collections import defaultdict
from functools import cached_property, lru_cache
from pathlib import Path
from typing import TYPE_CHECKING

from cdc6600.asking.machine import Machine, is_refusal
from cdc6600.asking.states import State, part_of
from cdc6600.assembling.sources import Refused, as_deck
from cdc6600.shared.ending import printable
from cdc6600.shared.program import Program
from cdc6600.shared.reading import read_file

if TYPE_CHECKING:
    from .listing import Listing

UNITS = "(?:branch|boolean|shift|add|longadd|multiply1|multiply2|divide|increment1|increment2)"
EVENT = re.compile(
    rf"issue|exchange|end|drain|(?:accept|return|bank) [0-9][0-9]?|ask [0-7]{{1,6}}|(?:read|finish|store) {UNITS}"
    r"|ppread [0-7]{1,6}|ppwrite [0-7]{1,6} [0-7]{1,20}"
)
ENDS = ("end", "drain")
LETTER = {"issue": "I", "read": "R", "finish": "F", "store": "S", "accept": "A", "return": "L", "bank": "B", "ask": "Q",
          "exchange": "X", "drain": "D", "end": "E", "ppread": "P", "ppwrite": "W"}
REFUSABLE = {
    "issue": "E1 E2 E3 E4 E5 E6 E7 E8", "read": "E9 E15", "finish": "E15", "store": "E10 E11 E12 E15",
    "accept": "E13 E14 E15", "return": "E10 E15", "bank": "E15", "ask": "E3 E17 E19 E21", "exchange": "E15 E18 E25",
    "ppread": "E3 E21 E26 E27", "ppwrite": "E3 E21 E26 E27",
}
# Refusals of an event that no machine can have made there, whatever its rules for conflicts are.
IMPOSSIBLE = ("E7", "E11", "E15", "E17")
# How a pending reservation is drawn: in its unit, in the hopper, in its channel.
RESERVED, IN_HOPPER, IN_CHANNEL = "-", "=", "~"
# The lines of a dump that shows no word, and how many of the words that it shows have their values told.
DUMP_LINES, WORDS = 14, 64


class Fault(Exception):
    """What is wrong with a file. Its text is the line for the user."""

    def __init__(self, file: str | Path, what: str) -> None:
        super().__init__(f"{file}: {what}")


def text_of(file: str | Path) -> str:
    """What a file has, a character for each byte. A source program is assembled."""
    try:
        return as_deck(file, read_file(file)).decode("latin-1")
    except Refused as fault:
        raise Fault(*fault.args) from None
    except OSError as fault:
        raise Fault(file, fault.strerror) from None


class Session:
    """A session by its text: the deck's lines without those that show words, these, and the events of the schedule."""

    def __init__(self, file: str | Path, text: str) -> None:
        self.file, self.text = file, text
        lines = text.removesuffix("\n").split("\n")
        self.deck_end = lines.index("end") + 1 if "end" in lines else 0
        deck = lines[: max(self.deck_end - 1, 0)]
        self.deck = [line for line in deck if not line.startswith("show ")]
        self.shows = [line for line in deck if line.startswith("show ")]
        self.events: list[str] = []
        for line in lines[self.deck_end :] if self.deck_end else []:
            self.events.append(line)
            if line in ENDS:
                break

    @property
    def core(self) -> int:
        """How many words the memory has."""
        found = re.match(r"core (\d+)", self.text)
        return int(found[1]) if found else 0

    @property
    def shown(self) -> list[tuple[int, int]]:
        """The first words that the deck shows: pairs of an address and a number of words."""
        found, left = list[tuple[int, int]](), WORDS
        for line in self.shows:
            first, last = (int(field, 8) for field in line.split(" ")[1:])
            found.append((first, min(last - first + 1, left)))
            left -= found[-1][1]
        return found

    def machine(self) -> Machine:
        return Machine("\n".join([*self.deck, "end", ""]).encode("latin-1"), self.shown)


class Reservation:
    """An issued instruction: the unit and its text, and the logs up to it without and with it. From its store event on
    its part in memory is known: whether it makes a reference, the absolute address if that is in range, and the channel
    of a load. An exploration gives it the cycles of its unit."""

    def __init__(self, unit: str, text: str, before: str, after: str) -> None:
        self.unit, self.text, self.before, self.after = unit, text, before, after
        self.refers, self.channel, self.cycles = False, 0, 0
        self.address: int | None = None

    def refer(self, row: int, state: State) -> int | None:
        """Makes its reference, which leads to a state; the place of the hopper that this has, or none."""
        self.refers, self.address, self.channel = True, state.addresses.get(row), part_of(state.channels, row) or 0
        return part_of(state.places, row)


class Replays:
    """What the program prints for the session's deck and a log."""

    def __init__(self, program: Program, session: Session, answers: str | Path) -> None:
        self.program, self.session, self.answers = program, session, answers

    @lru_cache(maxsize=None)
    def dump(self, log: str) -> list[str]:
        """The lines of the dump after a log."""
        ran = self.program.replay(log, self.session.text.encode("latin-1"))
        if ran.told:
            told = ran.told.decode("latin-1").split("\n", maxsplit=1)[0].removeprefix("cdc6600: ")
            raise Fault(self.answers, f"they are not those of {self.session.file}: {told}")
        lines = ran.printed.decode("latin-1").splitlines()
        if len(lines) < DUMP_LINES or not lines[-1].startswith("LOG "):
            raise Fault(self.program.path, f"replay of {log} prints no dump, and ends with status {ran.status}")
        return lines

    def number(self, log: str, line: int, place: int) -> int:
        """The number that a field of a line of the dump after a log has in octal digits, both numbered from 0."""
        return int(self.dump(log)[line].split()[place], 8)

    def register(self, log: str, name: str) -> str:
        """The value of a register after a log, in octal digits without noughts in front."""
        number = int(name[1])
        line, place = {"A": (3, number + 1), "B": (4, number + 1), "X": (5 + number, 1)}[name[0]]
        return f"{self.number(log, line, place):o}"


class Log:
    """The log of what was made so far: its entries before the last run of instructions, and how long that run is.
    `marks` has the number of entries and the run after each event: the texts of all logs could be too long to be
    kept."""

    def __init__(self) -> None:
        self.entries, self.run, self.marks = list[str](), 0, list[tuple[int, int]]()

    def __getitem__(self, n: int) -> str:
        """The text of the log after the event n, from 0."""
        return self.text_of(*self.marks[n])

    @property
    def text(self) -> str:
        return self.text_of(*self.mark)

    @property
    def mark(self) -> tuple[int, int]:
        """The number of entries and the run now."""
        return len(self.entries), self.run

    def text_of(self, entries: int, run: int) -> str:
        """The text of the log up to so many entries and so many instructions."""
        return " ".join([*self.entries[:entries], *[f"I{run}"] * bool(run)]) or "none"

    def add_instruction(self) -> None:
        self.run += 1

    def add(self, entry: str) -> None:
        """Adds an exchange or a peripheral access."""
        self.entries += [*[f"I{self.run}"] * bool(self.run), entry]
        self.run = 0

    def end_event(self) -> None:
        self.marks.append(self.mark)


class Following:
    """The drawing of a session as it is followed: a row for each reservation, the first one for the machine itself.

    `marks` has what a row has at an event, `gaps` what it has before that if it is anything, and `rows_at` the rows
    with a mark by the events. `refused` has a line for each refused event, and `ending` is the last line. `logs` has
    the log after each event. `listing` is that of the deck's source program, or none if that isn't known."""

    def __init__(self, program: Program, session: Session, file: str | Path | None, answers: str | None) -> None:
        """Asks the program for the answers where there is no file of them.

        Raises Fault where the deck is refused."""
        self.session, self.file = session, file or f"{session.file}, as answered"
        words = ["events"] if answers is None else ["list"]
        ran = program.run(words, session.text.encode("latin-1"))
        printed = ran.printed.decode("latin-1") if answers is None else answers
        self.answers = printed.removesuffix("\n").split("\n") if printed else []
        self.check_deck(ran.told.decode("latin-1").split("\n", maxsplit=1)[0].removeprefix("cdc6600: "))
        self.replays, self.log = Replays(program, session, self.file), Log()
        self.rows, self.columns, self.logs = [Reservation("", "", "", "")], 0, self.log
        self.marks, self.gaps = dict[tuple[int, int], str](), dict[tuple[int, int], str]()
        self.rows_at, self.refused = defaultdict[int, list[int]](list), list[str]()
        self.ending, self.has_accesses = "", False
        self.listing: Listing | None = None

    @cached_property
    def machine(self) -> Machine:
        return self.session.machine()

    def check_deck(self, told: str) -> None:
        """A fault of a line of the schedule is drawn; any other one is told."""
        found = re.match(r"E20 line (\d+)", told)
        if told and not (found and self.session.deck_end and int(found[1]) > self.session.deck_end):
            raise Fault(self.session.file, told)

    def check_schedule(self) -> None:
        """Raises Fault where no schedule comes after the deck."""
        if not self.session.events:
            raise Fault(self.session.file, "no schedule comes after its deck; tools/schedule makes one")

    def follow(self) -> None:
        """Draws each event up to the schedule's end, or to a line that is none.

        Raises Fault where no schedule comes after the deck, or an answer doesn't fit."""
        self.check_schedule()
        for n, event in enumerate(self.session.events):
            if not EVENT.fullmatch(event):
                self.stop(n, "no event: " + printable(event)[:60])
                return
            self.draw(n, event)
        if not self.ending:
            self.stop(len(self.session.events), "the schedule has no end")

    def take(self, event: str, answers: list[str]) -> None:
        """Draws one event more, with the lines that answer it.

        Raises Fault where they don't fit."""
        self.session.events.append(event)
        self.answers += answers
        self.draw(len(self.session.events) - 1, event)

    def draw(self, n: int, event: str) -> None:
        """Draws an event. Raises Fault where its answer doesn't fit."""
        line = f"line {self.session.deck_end + n + 1}"
        if n >= len(self.answers):
            raise Fault(self.file, f"no answer to {line} of {self.session.file}, {event}")
        self.columns = n + 1
        if not self.step(n, event):
            no_answer = f"is no answer to {line} of {self.session.file}, {event}"
            raise Fault(self.file, f"line {n + 1}, {self.answers[n]}, {no_answer}")
        self.log.end_event()

    def stop(self, n: int, why: str) -> None:
        """Draws that the schedule stops here. No answer may be left."""
        if n < len(self.answers):
            raise Fault(self.file, f"line {n + 1}, {self.answers[n]}, answers no event of {self.session.file}")
        self.ending = f"stops at line {self.session.deck_end + n + 1}: {why}"

    def step(self, n: int, event: str) -> bool:
        """Draws an event; whether the answer fits."""
        self.gaps.update({(row, n): gap for row, gap in gaps_of(self.machine.state).items()})
        kind, said = event.split(" ")[0], self.answers[n]
        if kind in ENDS:
            return self.close(n, kind)
        if said.startswith("ok"):
            return self.make(n, event)
        code = said.split(" ")[0]
        self.mark(self.machine.state.about(event), n, code)
        self.refused.append(noted(n, event, said))
        return bool(re.match(r"E[0-9]+ ", said)) and code in REFUSABLE[kind].split()

    def mark(self, row: int, n: int, mark: str) -> None:
        """Puts a mark into a row at an event, in place of one that is there."""
        if (row, n) not in self.marks:
            self.rows_at[n].append(row)
        self.marks[row, n] = mark

    def is_refused(self, n: int) -> bool:
        return is_refusal(self.answers[n])

    def make(self, n: int, event: str) -> bool:
        """Has the machine make an event, and draws it; whether the machine gives the same answer."""
        kind, *fields = event.split(" ")
        row, asked = self.machine.state.about(event), self.machine.state.asked
        refers = kind == "store" and self.machine.refers(row)
        came = self.machine.make(event)
        if is_refusal(came) and came.split(" ")[0] not in IMPOSSIBLE:
            raise Fault(self.file, f"line {n + 1}, {self.answers[n]}, where it is {came} by the rules")
        if came != self.answers[n]:
            return False
        if kind == "issue":
            row = self.issue(came)
        self.mark(row, n, LETTER[kind] + (str(int(fields[0])) if kind == "bank" else ""))
        if refers:
            place = self.rows[row].refer(row, self.machine.state)
            self.mark(row, n, "O" if place is None else f"H{place}")
        if kind == "exchange":
            self.log.add(f"E{asked}")
        if kind in ("ppread", "ppwrite"):
            self.has_accesses = True
            self.log.add({"ppread": "R", "ppwrite": "W"}[kind] + "=".join(map(plain, fields)))
        return True

    def issue(self, answer: str) -> int:
        """An issue; the row of its reservation, or that of the machine."""
        before = self.log.text
        self.log.add_instruction()
        if answer == "ok":
            return 0
        _, unit, row = answer.split(" ")
        self.rows.append(Reservation(unit, self.machine.state.texts[int(row)], before, self.log.text))
        return int(row)

    def close(self, n: int, kind: str) -> bool:
        """Draws the last line of a schedule; whether the rest of the answers is what the program prints for the log."""
        log, rest = self.log.text, self.answers[n:]
        if kind == "drain":
            for row in (0, *self.machine.state.pending):
                self.mark(row, n, "D")
            self.machine.drain()
        if kind == "end" and rest[0] == "NOT DRAINED":
            self.ending = noted(n, kind, f"{rest[0]}; LOG {log}")
            return rest[1:] == [f"LOG {log}"]
        self.ending = noted(n, kind, f"drained; LOG {log}")
        dump = self.replays.dump(log)
        for number, line in enumerate(dump):
            came = rest[number] if number < len(rest) else ""
            if line != came:
                raise Fault(self.file, f"line {n + number + 1}, {came}, where the log {log} gives {line}")
        return len(rest) == len(dump)


def gaps_of(state: State) -> dict[int, str]:
    """How the rows are drawn in a state: that of the machine while an exchange is asked for, and those of the pending
    reservations. A load in the hopper has a channel too."""
    found = {0: RESERVED} if state.asked else {}
    parts = (state.channels.values(), IN_CHANNEL), (state.places.values(), IN_HOPPER), (state.units.values(), RESERVED)
    for rows, gap in parts:
        found.update(dict.fromkeys(rows, gap))
    return found


def noted(n: int, line: str, said: str) -> str:
    """A line for what is said of an event."""
    return f"{n + 1:3d} {line:<17} {printable(said)}"


def plain(digits: str) -> str:
    """Octal digits without noughts in front."""
    return digits.lstrip("0") or "0"

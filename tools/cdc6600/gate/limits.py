"""Checks the limits that the code has of its own, and what goes past each: a deck, a session, a check or a test.

    tools/check limits           prints what differs, and nothing where all is right

A limit is a constant that is a number, the room of an `ArrayVec`, an `ArrayString` or a lane, the number that ends a
loop, or a time to sleep. The check finds them in the sources of the crates, without their tests. It fails if `LIMITS`
has no row for one, or a row for none; if a file doesn't have what its row says, where `{value}` is the limit, and
`{less}` and `{more}` are the numbers beside it; and if `tools/cdc6600/limits.py` repeats another number.

Run it after a change of a constant, or of one of these decks.
"""

import re
from dataclasses import dataclass

from cdc6600 import limits
from cdc6600.crates.crate import crates
from cdc6600.shared.program import ROOT

from .parts import NAMES, file_of, told

NUMBER = r"(0x[0-9a-f_]+|0o[0-7_]+|[0-9][0-9_]*)(?:[iu](?:8|16|32|64|size))?\b"
# What a source may have as a limit: the name under which `LIMITS` has it, and its number.
KINDS = (
    re.compile(rf"^ *(?:pub(?:\([a-z]+\))? )?const ([A-Z_]+): [iu](?:8|16|32|64|size) = {NUMBER}"),
    re.compile(rf"(Array(?:Vec|String)(?:::)?<[^()]*?){NUMBER}>"),
    re.compile(rf"(::ruled\()alloc, {NUMBER}\)"),
    re.compile(rf"\b(Duration::from_\w+\(){NUMBER}\)"),
    re.compile(rf"^ +((?:for \w+ in|while \w+)) .*?(?:\.\.=?|<=?) ?{NUMBER} \{{"),
)


@dataclass(frozen=True)
class Past:
    """What goes past a limit: texts of a file; or, in a file, more matches of a pattern than the limit, or as many if
    `is_full`."""

    file: str
    texts: tuple[str, ...]
    pattern: str = ""
    is_full: bool = False

    def fault(self, value: int) -> str | None:
        """What the file lacks."""
        if not (ROOT / self.file).is_file():
            return f"there is no {self.file}"
        text = (ROOT / self.file).read_text(encoding="utf-8")
        wanted = [it.format(value=value, less=value - 1, more=value + 1) for it in self.texts]
        if missing := [it for it in wanted if it not in text]:
            return f"{self.file} has no {' and no '.join(missing)}"
        many = len(re.findall(self.pattern, text, re.MULTILINE)) if self.pattern else value + 1
        return None if many > value or self.is_full and many == value else f"{self.file} has only {many} for {value}"


def has(where: str, *texts: str, pattern: str = "", is_full: bool = False) -> Past:
    """What goes past the limit in a file, or in the check with this name."""
    return Past(file_of(where) if where in NAMES else where, texts, pattern, is_full)


REFUSALS = "decks/pages/refusals.md"
REGISTERS = "an instruction has two results and three operands at most, which is proved at each push"
STATUS = "it is the number of a status"
BITS = "it is a pattern of bits, and no limit"
# The thread for requests at any time waits as long as this run takes.
WAITS = has("decks/run/endless.dump", "LOG E40 I1000000")
FULL_HOPPER = has("decks/sessions/full-hopper.answers", "E11 hopper full")

# For each limit, a case that goes past it, or the reason why no case can.
LIMITS: dict[str, Past | str] = {
    # The machine.
    "instructions/src/limits.rt MOST_ISSUES": has("crates/operator_main/src/command_tests.rt", "{more}"),
    "instructions/src/limits.rt MOST_REQUESTS": has("large", "MOST_REQUESTS", "one request more"),
    "instructions/src/limits.rt MOST_ACCESSES": has("large", "MOST_ACCESSES", "one too many"),
    "instructions/src/limits.rt FIRST_CHANNEL": has("decks/run/all-rows.deck", "SA{value} "),
    "instructions/src/limits.rt PAST_CHANNELS": has("decks/run/all-rows.deck", "SA{less} "),
    "instructions/src/registers.rt ArrayVec<Reg, ": REGISTERS,
    "scoreboard/src/reservation.rt ArrayVec<Reg, ": REGISTERS,
    "hopper/src/reference.rt PLACES": FULL_HOPPER,
    "in_flight/src/slots.rt SLOTS": "there are ten units, four places of the hopper and eight channels",
    "machine/src/events.rt MOST_WORK": "the contract of `drain` says that nothing is pending after it",
    "machine/src/processor/exchanging.rt REQUEST_ROOM": has("allocations", "EXCHANGE"),
    "machine/src/processor/peripheral.rt ACCESS_ROOM": has("allocations", "ACCESSES"),
    "relocation/src/area.rt PACKAGE_WORDS": has("decks/sessions/asking.answers", "E19 package range"),
    "relocation/src/saved.rt PAGE": has("decks/run/second-page.deck", "core {more}"),
    "relocation/src/storage.rt SMALLEST": has(REFUSALS, "`core {less}\\n` | 1: size"),
    "relocation/src/storage.rt LARGEST": has(REFUSALS, "`core {more}\\n` | 1: size"),
    "relocation/src/storage.rt BANKS": has("decks/run/all-banks.dump", pattern="^M "),
    "sequential_run/src/judging.rt REST_OF_A_WORD": has(
        "crates/text_tests/src/fulfilled_requests_tests.rt", "E0 E60 E20 I8 E20 E40"
    ),
    "word60/src/word18.rt ONES": BITS,
    "word60/src/word60.rt ONES": BITS,
    # A run by threads.
    "unit_workers/src/issuing.rt ISSUES_OF_A_HOLD": has("decks/run/straight.deck", pattern=r"\bNO\b"),
    "unit_workers/src/issuing.rt ArrayVec<Option<Note>, ": has(
        "decks/run/seven-units.deck", pattern="(?:^code|;) (?!PS)", is_full=True
    ),
    "unit_queue/src/ends.rt ::ruled(": has("crates/thread_tests/src/queue_tests.rt", "full_then_room_then_closed"),
    "machine_lock/src/shared.rt LOCK_TRIES": has("busy", "BUDGET"),
    "signals/src/pace.rt LOOKS": WAITS,
    "signals/src/pace.rt MOST_LOOKS": WAITS,
    "signals/src/pace.rt LONG": has("busy", "OTHERS"),
    "signals/src/pace.rt SOON": WAITS,
    "signals/src/pace.rt HURRIED_WAITS": WAITS,
    "signals/src/signals.rt FEW_LOOKS": WAITS,
    "signals/src/signal.rt Duration::from_millis(": WAITS,
    # Decks, schedules and what is printed.
    "parcel/src/lib.rt PARCELS": has(REFUSALS, "| 2: full |"),
    "instruction_table/src/encoding.rt ArrayVec<u16, ": "an instruction has one parcel or two",
    "instruction_table/src/spelling.rt ArrayString<": "the longest text has 15 bytes",
    "deck/src/line_list.rt LINES_OF_A_KIND": has("decks/run/most-requests.deck", pattern="^ask ", is_full=True),
    "deck/src/reading.rt MOST_LINES": has("large", "MOST_LINES", "too_many"),
    "deck/src/coding.rt ArrayVec<u16, ": has("mutations", "{less}, {value}, 256"),
    "deck/src/coding.rt PASS": BITS,
    "device_text/src/line.rt LONGEST_LINE": has("mutations", "{value}, {more}"),
    "device_text/src/refused_line/position.rt MOST_SHOWN_BYTES": has(
        REFUSALS, "'12345670123456701234567012345670'.."
    ),
    "device_text/src/refused_line/texts.rt BEFORE": "no text begins before the word and its blank end",
    "log_text/src/following_log.rt LONGEST_ENTRY": has(
        "decks/pages/commands.md", "'E40 W777777=777777777777777777777 I1'"
    ),
    "job_deck/src/dumping.rt for number in": "there are eight X registers",
    "job_deck/src/listing.rt while parcel": "a word has four parcels",
    # The program and the library for C.
    "operator_main/src/progress.rt QUIET": has("progress", "is_shown=True"),
    "operator_main/src/progress.rt Duration::from_secs(": has("progress", "is_shown=True"),
    "operator_main/src/progress.rt MOST": "a run or a replay takes less than a day",
    "operator_main/src/progress.rt PROGRESS_LINE": "the line has five digits at most, and 12 bytes beside",
    "operator_main/src/program.rt ONE_LINE": "the longest fault line has 47 bytes",
    "operator_main/src/program.rt WITH_POSITION":
        "the longest fault line of a refused line has 40 bytes, and the longest line of a position 197",
    "embedding/src/contents.rt LINES": "23 reserved registers have lines of less than 900 bytes",
    "embedding/src/outcome.rt FAULT_LINE": "the longest fault line has 47 bytes",
    "embedding/src/outcome.rt NO_MACHINE": STATUS,
    "embedding/src/outcome.rt NOT_DRAINED": STATUS,
    "embedding/src/stepping.rt LINES": "an event and its answer have at most 60 bytes",
}
# The names under which tools/cdc6600/limits.py repeats a limit.
REPEATED = {
    "MOST_ISSUES": "MOST_INSTRUCTIONS", "MOST_REQUESTS": "MOST_REQUESTS", "MOST_ACCESSES": "MOST_ACCESSES",
    "PACKAGE_WORDS": "PACKAGE_WORDS", "SMALLEST": "LEAST_WORDS", "LARGEST": "MOST_WORDS", "BANKS": "BANKS",
    "LINES_OF_A_KIND": "MOST_SHOWS", "MOST_LINES": "MOST_LINES", "LONGEST_LINE": "LONGEST_LINE",
}


def found_limits() -> list[tuple[str, int]]:
    """The limits of the sources, with their numbers."""
    found = set()
    for source in (it for crate in crates() for it in crate.code):
        for line in source.lines:
            for match in (it for kind in KINDS if not re.match(" *//", line) for it in kind.finditer(line)):
                found.add((f"{source.path.removeprefix('crates/')} {match[1]}", int(match[2].replace("_", ""), 0)))
    return sorted(found)


def fault_of(name: str, value: int) -> str | None:
    """What is wrong with a limit's row, or with the number that the tools repeat."""
    if name not in LIMITS:
        return "there is no row for it"
    repeated = REPEATED.get(name.rpartition(" ")[2])
    if repeated and getattr(limits, repeated) != value:
        return f"tools/cdc6600/limits.py: {repeated} is {getattr(limits, repeated)}"
    past = LIMITS[name]
    return None if isinstance(past, str) else past.fault(value)


def main() -> int:
    found = found_limits()
    faults = [f"crates/{name}: there is no such limit" for name in LIMITS if name not in dict(found)]
    faults += [f"crates/{name} {value}: {fault}" for name, value in found if (fault := fault_of(name, value))]
    return told(faults)

"""What tools/check embedding tries of a machine that is kept: its calls, by the class of the example in Python."""

import random
import re
from dataclasses import dataclass
from functools import partial
from typing import Any, Callable, Iterable, Iterator, Sequence

from cdc6600.asking.states import CHANNELS, PLACES
from cdc6600.drawing.following import Session
from cdc6600.drawing.units import NAMES
from cdc6600.limits import BANKS
from cdc6600.shared.decks import Deck, deck, log_of, session
from cdc6600.shared.program import Program, Ran

from .drawn_sessions import DrawnDeck, Driver
from .judging_by_rules import Judge, text_now
from .states_by_rules import Reading
from .texts_by_rules import KINDS, kind_of, operands_of, stores

MISSING, NOT_DRAINED, REFUSED, USAGE = 8, 9, 1, 2
LONGEST_LINE = 200
# Runs of more instructions than this aren't made event by event.
MOST_INSTRUCTIONS = 500
# Texts that say no event, with what is told of them.
NO_EVENTS = (
    (b"", "unknown"), (b"end", "unknown"), (b"drain", "unknown"), (b"issue\n", "unknown"), (b"read nothing", "unknown"),
    (b"accept x", "number"), (b"x" * LONGEST_LINE, "unknown"), (b"x" * (LONGEST_LINE + 1), "long"),
)
HALTS = ("running", "stop", "illegal", "straddle", "fetch")


# The loop at 1 counts X1 down from 3.
LOOP = b"""core 256
at 41
word 00000100000000000000
word 00000020000000000000
at 100
code SX1 B0+3; SX2 B0+1
code IX1 X1-X2; NZ X1,1; NO
code PS
start 40
end
"""
# The result of the third instruction is held by the second one, and the fourth, a later reader, doesn't hold it.
LATER_READER = b"""core 256
at 41
word 00000100000000000000
word 00000020000000000000
at 100
code SA2 B0+10; BX3 X1*X2; NO
code SX1 B0+5; IX4 X1+X1; PS
start 40
end
ask 40
exchange
issue
issue
issue
issue
issue
read increment2
finish increment2
store increment2
end
"""
REFUSED_OPCODE = """core 256
at 41
word 00000100000000000000
word 00000020000000000000
at 100
word {:<020}
start 40
end
"""
# The units in the order of their numbers.
UNITS = ("branch", "boolean", "shift", "longadd", "divide", "increment1", "increment2")
# The events that are judged in each state, those that the page in a browser offers among them; `ask` for the package of
# the deck is one more.
JUDGED = (
    "exchange", "issue", *(f"{kind} {unit}" for unit in NAMES for kind in ("read", "finish", "store")),
    *(f"accept {place}" for place in PLACES), *(f"return {channel}" for channel in CHANNELS),
    *(f"bank {bank}" for bank in range(BANKS)), "ppread 0", "ppread 110", "ppwrite 120 17", "ppread 777777",
    "ask 777777", "accept 9", "return 0", "bank 40",
)
# The seeds of the sessions that are drawn, and how many events each one has.
SEEDS, DRAWN_EVENTS = range(8), 100
# Refusals for which the library has no holders: the reservation that set the fault flag, or whose reference made the
# bank busy, may be carried out.
WITHOUT_HOLDERS = ("E2", "E13")

# The class Machine of the example in Python, which tools/check embedding loads.
Machine: Any = None
# How a machine of that class, or one like it, is made.
Make = Callable[[], Any]


class Functions(Program):
    """The library's functions in the form in which the second reading asks the program."""

    def __init__(self, functions: Any) -> None:
        super().__init__("the library")
        self.functions = functions

    def replay(self, log: str, text: bytes) -> Ran:
        """Replays a log on a deck."""
        printed, told, status = self.functions.replay(text, log.encode())
        return Ran(status, printed, told)

    def run(self, words: Sequence[str], text: bytes = b"", *_how: object) -> Ran:
        """Lists a deck, or answers a session."""
        printed, told, status = getattr(self.functions, words[0])(text)
        return Ran(status, printed, told)


def differing(what: str, wanted: object, came: object) -> list[str]:
    """A fault where a call answers otherwise than is wanted."""
    return [] if wanted == came else [f"{what}: wanted {wanted}, and not {came}"]


def octal(words: Any) -> list[int]:
    return [int(word, 8) for word in words]


class Shown:
    """What a dump says of registers and words."""

    def __init__(self, dump: bytes) -> None:
        lines = [line.split() for line in dump.decode().splitlines()]
        named = {line[0]: line[1:] for line in lines}
        self.x = [int(named[f"X{n}"][0], 8) for n in range(8)]
        self.a, self.b = octal(named["A"]), octal(named["B"])
        self.p, self.parcel = int(named["P"][0], 8), int(named["P"][2])
        self.area = octal([named["RA"][0], named["RA"][2], named["RA"][4]])
        self.halt, self.fault = HALTS.index(named["HALT"][0]), named["HALT"][-1] == "address"
        self.words = [(int(line[1], 8), int(line[2], 8)) for line in lines if line[0] == "M"]


def faults_of_shown(what: str, machine: Any, dump: bytes) -> list[str]:
    """What a drained machine tells otherwise than its dump says."""
    faults = differing(f"the dump of {what}", (dump, b"", 0), machine.dump())
    shown, (registers, status) = Shown(dump), machine.registers()
    told = [list(registers.x), list(registers.a), list(registers.b), registers.p, registers.parcel,
            [registers.ra, registers.fl, registers.em], registers.halt, registers.fault, status]
    wanted = [shown.x, shown.a, shown.b, shown.p, shown.parcel, shown.area, shown.halt, shown.fault, 0]
    faults += differing(f"the registers of {what}", wanted, told)
    for address, word in shown.words:
        faults += differing(f"the word {address:o} of {what}", ([word], 0), machine.words(address, 1))
    every, _ = machine.words(0, 1 << 17)
    faults += differing(f"the words of {what}", [every[address] for address, _ in shown.words],
                        [word for _, word in shown.words])
    return faults + differing(f"the words past the end of {what}", ([], 0), machine.words(len(every), 3))


def faults_of_events(make: Make, it: Any) -> list[str]:
    """Makes the events of a session one by one; what is answered otherwise than `events` answers."""
    with make() as machine:
        faults, answers = differing(f"boot {it}", (b"", 0), machine.boot(it.text)), b""
        *lines, last = it.schedule[: next(n for n, line in enumerate(it.schedule) if line in ("end", "drain")) + 1]
        for line in lines:
            printed, told, status = machine.event(line.encode())
            faults += differing(f"{it}, {line}", (b"", 0), (told, status))
            answers += printed
        if last == "drain":
            faults += differing(f"{it}, drain", True, machine.drain() <= 40)
        faults += differing(f"the answers of {it}", it.answers[: len(answers)], answers)
        rest = it.answers[len(answers) :]
        faults += differing(f"the log of {it}", ((log_of(rest) or "").encode(), b"", 0), machine.log())
        faults += differing(f"whether {it} is drained", not rest.startswith(b"NOT DRAINED"), machine.is_drained())
        if machine.is_drained():
            return faults + faults_of_shown(it, machine, rest)
        return faults + differing(f"the dump of {it}, which isn't drained", (b"", b"", NOT_DRAINED), machine.dump())


def contents_of(judge: Judge) -> dict[str, list[str]]:
    """The lines that tell the contents of each part of a machine in the state of a judge, but for the words of the
    channels; those of the next instruction if no branch is pending."""
    state, rows = judge.state, judge.rows
    held = [(unit, state.units[unit]) for unit in UNITS if unit in state.units]
    waiting = [(place, row, rows[row]) for place, row in sorted(state.places.items())]
    arrived = [(channel, row) for channel, row in sorted(state.channels.items()) if row in state.loaded]
    reserved = sorted((row, register) for register, row in state.registers.items())
    unread = sorted(row for row, phase in state.phases.items() if phase == "issued")
    found = {
        "units": [f"{unit} {row} {state.phases[row]} {rows[row].text}" for unit, row in held],
        "hopper": [f"{place} {row} {it.address:o} {'store' if stores(it.text) else 'load'} {it.text}"
                   for place, row, it in waiting],
        "channels": [f"{channel} {row} {rows[row].text}" for channel, row in arrived],
        "banks": [f"{bank}" for bank in sorted(state.banks)],
        "request": [state.asked] * bool(state.asked),
        "reserved_registers": [f"{register} {row} {rows[row].text}" for row, register in reserved],
        "unread_operands": [line for row in unread for line in unread_lines(judge, row)],
    }
    return found if "branch" in state.units else {**found, "next_instruction": [next_line(judge)]}


def unread_lines(judge: Judge, row: int) -> list[str]:
    """The lines of the operands that a reservation is still to read, each once, without B0."""
    writers = dict(judge.awaited(row))
    operands = operands_of(judge.rows[row].text)
    return [" ".join(map(str, [row, it, *([writers[it]] if it in writers else [])])) for it in operands]


def next_line(judge: Judge) -> str:
    """The line of the instruction that is issued next."""
    p, parcel = judge.replays.number(judge.log, 0, 1), judge.replays.field(judge.log, 0, 3)
    return f"{p:o} {parcel} {text_now(judge) or '?fetch'}"


def lines_of_contents(machine: Any, part: str) -> list[str]:
    """The lines that the library prints of a part; of a channel without its word, and of operands without B0 and what
    comes twice."""
    lines = lines_of(machine.contents(part))
    if part == "unread_operands":
        return list(dict.fromkeys(line for line in lines if " B0" not in line))
    return [re.sub(r"^(\d \d+) [0-7]{20} ", r"\1 ", line) for line in lines] if part == "channels" else lines


def lines_of(came: tuple[bytes, bytes, int]) -> list[str]:
    """The lines that a call prints, or how it fails."""
    printed, told, status = came
    return printed.decode().splitlines() if (told, status) == (b"", 0) else [f"status {status}, {told!r}"]


def judgement_of(judge: Judge, event: str, number: int) -> list[str]:
    """The lines of the judgement of an event: its answer, and the reservations that hold it back. An issue to a unit
    would get this number."""
    refusal = judge.refusal(event)
    if refusal is None:
        return [answer_of(judge, event, number)]
    return [refusal.answer, *(str(row) for row in refusal.rows if refusal.code not in WITHOUT_HOLDERS)]


def answer_of(judge: Judge, event: str, number: int) -> str:
    """The answer to an event that is made."""
    kind, *fields = event.split(" ")
    if kind == "ppread":
        return f"ok {judge.replays.word(judge.log, fields[0])}"
    units = KINDS.get(kind_of(judge.next_text) or "", ()) if kind == "issue" else ()
    free = [unit for unit in units if unit not in judge.state.units]
    return f"ok {free[0]} {number}" if free else "ok"


def faults_of_contents(make: Make, functions: Any, it: Any) -> list[str]:
    """The contents of the parts of a machine after each event of a session, and how it judges events then, against the
    second reading of the rules, which follows the answers."""
    session = Session(str(it), it.text.decode("latin-1"))
    faults, reading, answers = [], Reading(Functions(functions), session), functions.events(it.text)[0].decode()
    with make() as machine:
        machine.boot(it.text)
        for n, (event, answer) in enumerate(zip(session.events, answers.splitlines())):
            if event == "end":
                break
            if event == "drain":
                machine.drain()
            else:
                machine.event(event.encode())
            reading.read(event, answer)
            judge, after = Judge(reading), f"after event {n + 1} of {it}, {event}"
            wanted = contents_of(judge)
            came = {part: lines_of_contents(machine, part) for part in wanted}
            faults += differing(f"the contents {after}", wanted, came)
            faults += faults_of_judging(after, machine, judge, len(reading.rows))
    return faults


def faults_of_judging(after: str, machine: Any, judge: Judge, number: int) -> list[str]:
    """How a machine judges events, against the second reading. An issue to a unit would get this number."""
    faults = []
    for event in (*JUDGED, *re.findall("^start [0-7]+$", judge.replays.session.text, re.MULTILINE)):
        event = event.replace("start", "ask")
        came = lines_of(machine.judge(event.encode()))
        faults += differing(f"the judgement of {event} {after}", judgement_of(judge, event, number), came)
    return faults


@dataclass
class Unstored:
    """A session that isn't stored in decks/sessions."""

    name: str
    text: bytes

    def __str__(self) -> str:
        return self.name


def drawn_session(make: Make, seed: int) -> Unstored:
    """A session whose deck and events are drawn, by what a machine answers to the events before."""
    draw = random.Random(seed)
    deck, events = DrawnDeck(draw).text(), []
    driver = Driver(draw, deck)
    with make() as machine:
        machine.boot(deck.encode())
        for _ in range(DRAWN_EVENTS):
            events.append(driver.event())
            driver.note(events[-1], machine.event(events[-1].encode())[0].decode().rstrip())
    return Unstored(f"the drawn session {seed}", "\n".join([*deck.splitlines(), *events, "end", ""]).encode())


def faults_of_drawn_session(make: Make, functions: Any, seed: int) -> list[str]:
    """The contents of the parts, and the judgements, after each event of a drawn session."""
    return faults_of_contents(make, functions, drawn_session(make, seed))


def faults_of_arrival(make: Make) -> list[str]:
    """The words of loads that wait in their channels, and that a word is held while its instructions are issued."""
    it = session("one-word")
    with make() as machine:
        machine.boot(it.text)
        for line in it.schedule[: it.schedule.index("return 1")]:
            machine.event(line.encode())
        held = machine.registers()[0]
        wanted = ([f"1 1 {1:020o} SA1 B0+10", f"2 2 {1:020o} SA2 B0+10"], True, 0)
        return differing(f"the channels of {it}", wanted,
                         (machine.contents("channels")[0].decode().splitlines(), held.has_held, held.opcode))


def faults_of_opcodes(make: Make) -> list[str]:
    """The refused opcode by which a run halted."""
    faults = []
    for parcels, opcode in (("30000", 0o300), ("01100", 0o11), ("01300", 0o13)):
        with make() as machine:
            machine.boot(REFUSED_OPCODE.format(parcels).encode())
            machine.event(b"ask 40")
            machine.advance(1000)
            registers = machine.registers()[0]
            faults += differing(f"the opcode of {parcels}", (2, opcode), (registers.halt, registers.opcode))
    return faults


def faults_of_advancing(make: Make, it: Any) -> list[str]:
    """Runs a deck by one call that advances, and by calls of at most seven events: they end as its run does."""
    if not is_short(it):
        return []
    first, faults = asking(it.text), list[str]()
    for most in (10_000_000, 7):
        with make() as machine:
            machine.boot(it.text)
            machine.event(first)
            while machine.advance(most) == most:
                pass
            faults += faults_of_shown(f"{it}, advanced by {most}", machine, it.dump)
    return faults


def faults_of_stopping(make: Make) -> list[str]:
    """An advance stops, drained, each of the three times that the loop at 1 begins, and then at the end."""
    stops = []
    with make() as machine:
        machine.boot(LOOP)
        machine.event(b"ask 40")
        while machine.advance(1_000_000, 1):
            registers = machine.registers()[0]
            stops.append((registers.p, registers.parcel, registers.x[1], machine.is_drained()))
    return differing("the stops of a loop", [(1, 0, 3, True), (1, 0, 2, True), (1, 0, 1, True), (2, 0, 0, True)], stops)


def faults_of_moments(make: Make) -> list[str]:
    """Registers and words between the events of a session, which follow the effects made so far: a load sets its
    register when it returns, and a store its word when the bank accepts it."""
    it, faults, loaded, stored = session("one-word"), [], 0, 1
    with make() as machine:
        machine.boot(it.text)
        for line in it.schedule[: it.schedule.index("end")]:
            is_made = machine.event(line.encode())[0] == b"ok\n"
            loaded = 1 if line == "return 1" else loaded
            stored = 5 if line == "accept 2" and is_made else stored
            registers, status = machine.registers()
            told = (registers.x[1], status, machine.words(0o110, 1))
            faults += differing(f"{it} after {line}", (loaded, 0, ([stored], 0)), told)
    return faults


def asking(deck: bytes) -> bytes:
    """The event that asks for the first exchange of a deck."""
    return next(line.replace(b"start", b"ask") for line in deck.splitlines() if line.startswith(b"start "))


def is_short(it: Any) -> bool:
    """Whether a deck's run asks for no later exchange and can be made event by event."""
    if it.dump is None or it.arguments or re.search(rb"^ask ", it.text, re.MULTILINE):
        return False
    return sum(int(count) for count in re.findall(r"\bI(\d+)", log_of(it.dump) or "")) <= MOST_INSTRUCTIONS


def faults_of_next(make: Make, events: Callable[[bytes], Any], it: Any) -> list[str]:
    """Runs a deck by one next event after another: it ends as the deck's run does, and its lines are a session with
    these answers."""
    if not is_short(it):
        return []
    first = asking(it.text)
    with make() as machine:
        machine.boot(it.text)
        lines, answers, is_made = [first], machine.event(first)[0], True
        while is_made:
            printed, told, status = machine.next()
            line, _, answer = printed.partition(b"\n")
            is_made = answer.startswith(b"ok")
            lines, answers = [*lines, line], answers + answer
            if (told, status) != (b"", 0):
                return [f"{it}: the event after {line!r} ends with {status}"]
        faults = faults_of_shown(f"{it} by next events", machine, it.dump)
    asked = it.text + b"".join(line + b"\n" for line in [*lines, b"end"])
    return faults + differing(f"the events of {it} as a session", (answers + it.dump, b"", 0), events(asked))


def faults_of_lines(make: Make) -> list[str]:
    """Texts that say no event: they are refused, and the machine stays as it is."""
    faults, it = [], session("conflicts")
    with make() as machine:
        machine.boot(it.text)
        for text, fault in NO_EVENTS:
            told = f"cdc6600: E20 line 1: {fault}\n".encode()
            faults += differing(f"the event {text!r}", (b"", told, REFUSED), machine.event(text))
            faults += differing(f"the judgement of {text!r}", (b"", told, REFUSED), machine.judge(text))
        faults += differing("the log after no event", (b"none", b"", 0), machine.log())
    return faults


def faults_of_handles(make: Make) -> list[str]:
    """A handle without a machine, and with one in place of another."""
    it, refused = deck("two-adds"), b"cdc6600: E20 line 1: first\n"
    with make() as machine:
        nothing = [machine.event(b"issue"), machine.judge(b"issue"), machine.next(), machine.log(), machine.dump(),
                   machine.contents("units"), machine.contents("reserved_registers"),
                   machine.contents("unread_operands"), machine.drain(), machine.advance(1), machine.is_drained(),
                   machine.registers()[1], machine.words(0, 1)]
        silent = (b"", b"", MISSING)
        wanted = [*[silent] * 8, 0, 0, False, MISSING, ([], MISSING)]
        faults = differing("calls without a machine", wanted, nothing)
        for budget in (0, 10_000_001):
            faults += differing(f"boot with the budget {budget}", (b"", USAGE), machine.boot(it.text, budget))
        booted = [machine.boot(it.text), machine.event(b"ask 40"), machine.boot(it.text), machine.log()]
        ok = (b"", 0)
        faults += differing("one machine for another", [ok, (b"ok\n", *ok), ok, (b"none", *ok)], booted)
        faults += differing("a refused deck", [(refused, REFUSED), silent], [machine.boot(b"x\n"), machine.log()])
        machine.free()
        return faults + differing("a freed machine", silent, machine.event(b"issue"))


def works(
    make: Make, functions: Any, decks: Iterable[Deck], sessions: Iterable[Any]
) -> Iterator[Callable[[], list[str]]]:
    """All that is tried, each as a call that gives its faults."""
    for it in sessions:
        yield partial(faults_of_events, make, it)
        yield partial(faults_of_contents, make, functions, it)
    yield partial(faults_of_contents, make, functions, Unstored("a result with a later reader", LATER_READER))
    for seed in SEEDS:
        yield partial(faults_of_drawn_session, make, functions, seed)
    for deck_ in decks:
        yield partial(faults_of_next, make, functions.events, deck_)
        yield partial(faults_of_advancing, make, deck_)
    for work in (faults_of_arrival, faults_of_opcodes, faults_of_stopping, faults_of_moments, faults_of_lines,
                 faults_of_handles):
        yield partial(work, make)

"""Makes a schedule for a deck, event by event, and asks a machine that is kept whether each event may be made.

An event that the machine refuses changes nothing and isn't part of the schedule. It is tried again when an event was
made that may have removed what it was refused for.
"""

from cdc6600.asking.machine import Machine, is_refusal
from cdc6600.drawing.following import DUMP_LINES, Fault, Following, Log, Replays, Session
from cdc6600.limits import BANKS
from cdc6600.shared.program import Program

from .clock import Clock, Part, is_taken
from .course import Course
from .requests import Requests
from .times import Times

TIMED, GREEDY, PROGRAM_ORDER = POLICIES = ("timed", "greedy", "program-order")
# The events that may remove what an event is refused for, by the number of the refusal.
REMOVING = {
    "E1": "exchange", "E2": "exchange", "E4": "store", "E5": "exchange", "E6": "store accept", "E7": "store",
    "E8": "store return", "E9": "store return", "E10": "read", "E11": "accept", "E12": "store", "E13": "bank",
    "E14": "accept", "E18": "store accept return", "E25": "issue",
}
BUDGET_USED, BRANCH = "E3", "branch"
EXCHANGE = "exchange"
# After the last cycle of any schedule.
NEVER = float("inf")


def check_deck(program: Program, session: Session) -> None:
    """Raises Fault where the deck of a session is refused."""
    told = program.run(["list"], session.text.encode("latin-1")).told.decode("latin-1")
    if told:
        raise Fault(session.file, told.split("\n", maxsplit=1)[0].removeprefix("cdc6600: "))


class Schedule:
    """A schedule that grows up to the end of a deck's run. `events` are its lines, `cycles` the minor cycle of each,
    and `issued` counts instructions."""

    machine: Machine
    course: Course

    def __init__(self, program: Program, session: Session, times: Times, policy: str = TIMED,
                 budget: int = 1000) -> None:
        self.program, self.session, self.policy, self.budget = program, session, policy, budget
        self.clock = Clock(times)
        # The cycle up to which parts may be ready. The greedy policy doesn't look at it.
        self.limit = NEVER if policy == GREEDY else 0.0
        self.requests = Requests(session.deck)
        # The bank for which a reference waits. Only the greedy policy looks at it.
        self.wanted: int | None = None
        self.replays = Replays(program, session, session.file)
        self.log, self.events, self.cycles, self.issued = Log(), list[str](), list[int](), 0
        self.refused: dict[Part | str, str] = {}

    def text(self) -> str:
        """The session: the deck's lines, and after them those of the schedule."""
        deck = self.session.text.split("\n")[: self.session.deck_end]
        return "".join(f"{line}\n" for line in [*deck, *self.events, "end"])

    def followed(self) -> Following:
        following = Following(self.program, Session(self.session.file, self.text()), None, None)
        following.follow()
        return following

    # ---- the machine ----

    def ask(self, key: Part | str, line: str) -> str | None:
        """Asks for an event. The answer if it is made, otherwise none, and the refusal is kept."""
        answer = self.machine.make(line)
        if not is_refusal(answer):
            return answer
        self.refused[key] = answer.split(" ")[0]
        if self.refused[key] not in REMOVING:
            raise Fault(self.program.path, f"it answers {answer} to event {len(self.events) + 1}, {line}")
        if self.refused[key] == "E13" and self.policy == GREEDY:
            self.wanted = int(answer.split(" ")[-1])
        return None

    def made(self, line: str) -> None:
        """Adds an event that was made, at the clock's cycle."""
        kind = line.split(" ")[0]
        self.events.append(line)
        self.cycles.append(self.clock.now)
        for key, code in list(self.refused.items()):
            if code in REMOVING and kind in REMOVING[code].split(" "):
                del self.refused[key]

    # ---- the parts of the machine ----

    def make_issue(self) -> bool:
        """Issues the next instruction; whether that is done."""
        self.make_request()
        if self.issued == self.budget:
            self.refused[self.clock.issuing] = BUDGET_USED
        if self.clock.issuing in self.refused or self.clock.issuing.ready > self.limit:
            return False
        text, before = self.machine.state.next, self.log.mark
        answer = None if self.is_held() else self.ask(self.clock.issuing, "issue")
        if not answer:
            return False
        self.log.add_instruction()
        self.clock.issue(text)
        leads_elsewhere = self.course.step()
        if answer != "ok":
            unit, number = answer.split(" ")[1:]
            if unit == BRANCH and self.course.is_lost:
                leads_elsewhere = is_taken(self.replays, self.log.text_of(*before), self.log.text)
            self.clock.reserve(int(number), unit, text, leads_elsewhere)
        self.issued += 1
        self.made("issue")
        return True

    def is_held(self) -> bool:
        """Whether the policy doesn't issue now. In program order nothing is issued while something is pending."""
        return self.policy == PROGRAM_ORDER and bool(self.clock.pending)

    def make_step(self, part: Part) -> bool:
        """A reservation makes its next event; whether that is done."""
        if part in self.refused or part.ready > self.limit:
            return False
        line = self.machine.state.next_of(part.number)
        if not self.ask(part, line):
            return False
        if part.event == "store":
            part.address = self.machine.state.addresses.get(part.number)
        self.clock.step(part)
        self.made(line)
        return True

    def make_bank(self, bank: int) -> bool:
        """A bank is freed, if its time is over; whether that is done. The greedy policy frees a bank for which a
        reference waits."""
        is_wanted = self.policy != GREEDY or self.wanted == bank
        if not is_wanted or self.clock.banks[bank] > self.limit:
            return False
        self.wanted = None
        line = f"bank {bank}"
        if not self.ask(line, line):
            return False
        self.clock.free(bank)
        self.made(line)
        return True

    def make_request(self) -> None:
        """Asks for an exchange, if that is due and no other one is asked for."""
        package = None if self.machine.state.asked else self.requests.next(self.issued)
        if package is not None:
            line = f"ask {int(package, 8):o}"
            self.ask(EXCHANGE, line)
            self.made(line)

    def make_exchange(self) -> bool:
        """Makes the exchange that is asked for; whether that is done."""
        self.make_request()
        package = self.machine.state.asked
        if not package:
            return False
        if EXCHANGE in self.refused or self.clock.issuing.ready > self.limit or not self.ask(EXCHANGE, EXCHANGE):
            return False
        self.clock.exchange()
        self.course.exchange(package)
        self.log.add(f"E{package}")
        self.made(EXCHANGE)
        return True

    # ---- the whole ----

    def sweep(self) -> bool:
        """Offers each part of the machine one event; whether one was made."""
        parts, banks = list(self.clock.pending), sorted(bank for bank in self.clock.banks if bank < BANKS)
        issues = [self.make_exchange, self.make_issue]
        steps = [lambda part=part: self.make_step(part) for part in parts]
        steps += [lambda bank=bank: self.make_bank(bank) for bank in banks]
        return [make() for make in (issues + steps if self.policy == GREEDY else steps + issues)].count(True) > 0

    def next_cycle(self) -> int | None:
        """The next cycle at which a part is ready, or none. A bank alone is no reason to go on."""
        cycles = [part.ready for part in (self.clock.issuing, *self.clock.pending) if part.ready > self.limit]
        if self.clock.pending or self.machine.state.asked:
            cycles += [cycle for cycle in self.clock.banks.values() if cycle > self.limit]
        return min(cycles, default=None)

    def make(self) -> None:
        """Makes all events up to the end.

        Raises Fault where the deck is refused, or the program doesn't answer as it should."""
        check_deck(self.program, self.session)
        self.machine, self.course = self.session.machine(), Course(self.session)
        while True:
            while self.sweep():
                pass
            cycle = self.next_cycle()
            if cycle is None:
                break
            self.limit = cycle
        self.clock.close()
        self.check_dump()

    def check_dump(self) -> None:
        """Raises Fault where the machine isn't drained, or has another dump than the one to which the log leads."""
        log = self.log.text
        dump, wanted = self.machine.kept.dump()[0].decode("ascii").splitlines(), self.replays.dump(log)
        if not dump:
            raise Fault(self.session.file, f"the machine isn't drained after the log {log[:80]}")
        # Only the dump of the log has the shown words.
        for line, other in zip(dump, [*wanted[: DUMP_LINES - 1], wanted[-1]]):
            if line != other:
                what = f"after the log {log[:80]} it has {other}, and the schedule leads to {line}"
                raise Fault(self.program.path, what)

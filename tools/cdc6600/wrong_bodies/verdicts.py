"""Reads the output of `rt check`, and finds for each wrong body the goal at which the prover refuses it.

Here is the verdict of one check. second.py has the verdict on a body that a check refuses. A check refuses a body only
if it names a goal of the body's own function:

    fn F: no proof: .. `search` did not prove `GOAL`      where tactics prove the function, or
    fn F: not proved                                      with an error of a proof file of F that names the goal:
    proofs/../F/Answers.antt:1:1: error: `GOAL`: ..       what the file says of the right code is false of this one

GOAL is of what F ensures, of an invariant of a type that F makes or changes, or of a loop's invariant. What a call in F
requires doesn't count, nor does a limit of an integer. Nor does it count that F calls another function that isn't
proved, that a proof file names what is gone from the code, or that the front end or the borrow checker refuses the
text: none of that shows that a contract says enough. And silence never counts: each function has to have its line.
"""

import re
from dataclasses import dataclass, field
from typing import Iterable, Mapping, Sequence

from cdc6600.crates.source import Item, items_of, module_of
from cdc6600.crates.table import Unreadable

from .opening import attributes_of
from .written import resting

LINE = re.compile(r"fn (\S+): (proved|not proved|no proof|could not tell|assumed|not assumed)\b(.*)")
LEFT = re.compile(r"`search` did not prove ([^;]*)")
# A goal of a function that has a proof file, and in it no answer for this goal.
NOTE = re.compile(r"note: (src/\S+\.rt):(\d+):\d+: it is not proved that .*\(`([^`]+)`\)")
CONTRACT = re.compile(r"(returns|invariant_of|loop)\b")
# The names of other goals: what a call requires, and what an operation of the language does.
GOAL = re.compile(rf"{CONTRACT.pattern}|-requires\b|^(overflow|underflow|cast|index|div|shift|decreases)")
FILE = r"(?:\./)?(proofs/(\S+)/(?:Answers|Invariants|Proof)\.antt):\d+:\d+: error: "
ERROR = re.compile(FILE + r"`([^`]+)`: (.*)")
# What is said of a proof file at no declaration of it. Then the check may have passed over some.
UNREAD = re.compile(FILE + r".*")
# What is said of goals whose proof cites a step of the same file that isn't proved.
RESTS = re.compile(
    FILE + r"\d+ declarations? that depends? on `([^`]+)`, which was rejected, (?:was|were) not checked: (.*)"
)
# What is said of a proof file that names something which the edit took away, or that can't be read.
NAMES = re.compile(
    r"has no field|is not in scope|has no `|was not admitted|is no name|operand is missing|expected the end"
    r"|cannot continue"
)
CALLS = re.compile(r"it calls `")
# What is said of a function where the check came to its end.
ENDED = ("proved", "not proved", "no proof")
# The end of the name of a copy (copies.py).
NUMBERED = re.compile(r"_(?:wrong|right)_\d+$")
ENDS = re.compile(r"only=(\d+) proved=(\d+)|logic=(proved|not-proved)\b.*|(?:only=\d+ )?holes=(\d+)")
STOPS = re.compile(r"(?<!fatal )\berror(\[[\w-]+\])?:|^rattle: ")
REFUSED, NOT_REFUSED, CANT_TELL, REFUTED = "refused", "not refused", "can't tell", "refuted"


@dataclass(frozen=True)
class Verdict:
    """What is found of a body, and the words for it: the goal that refuses it, or why it isn't refused."""

    kind: str
    words: str

    @property
    def refused(self) -> bool:
        return self.kind == REFUSED


@dataclass
class Goals:
    """What a check leaves unproved of one function: goals that search didn't prove; declarations of a proof file that
    it rejects, and those that name what is gone, each by the file's path and its name. `is_whole` says that the check
    came to each goal: it comes to none of a function that calls a closure which isn't proved."""

    said: list[re.Match[str]] = field(default_factory=list)
    is_whole: bool = False
    searched: list[str] = field(default_factory=list)
    rejected: list[tuple[str, str]] = field(default_factory=list)
    gone: list[tuple[str, str, str]] = field(default_factory=list)

    def contract(self) -> list[str]:
        """The goals of the contract among them."""
        return self.only([*self.searched, *(goal_in(path, name) for path, name in self.rejected)])

    def every(self) -> list[str]:
        """The goals of the contract, with those of which only is said that the answer names what is gone."""
        return self.only([*self.contract(), *(goal_in(path, name) for path, name, _ in self.gone)])

    def has_goal(self) -> bool:
        """Whether there is a goal at all, and there are no steps but those on which goals rest."""
        names = [name for _, name, *_ in [*self.rejected, *self.gone]]
        return bool(self.searched or names) and all(GOAL.search(name) for name in names)

    @staticmethod
    def only(goals: Iterable[str]) -> list[str]:
        return [goal for goal in dict.fromkeys(goals) if CONTRACT.match(goal)]


@dataclass(frozen=True)
class Outcome:
    """What one check says of a body: the verdict by that check alone, and of each function that it changes what is
    left."""

    verdict: Verdict
    goals: tuple[Goals, ...] = ()


def is_of(name: str, item: Item, crate: str) -> bool:
    """Whether a name of the check's output is the function's, or that of a closure in it.

    A function is `crate::module::f`, and a method `crate::module::Type::f` by the type's own module. At some arguments
    of the type alone it is `Type+8::f`, and one of a trait's is `TypeTrait::f`, with the trait's arguments behind it. A
    closure in it is `crate::module::fn::f::closure..` or `crate::module::fn::Type::f::closure..`."""
    steps = name.split("::")
    if "fn" in steps[:-1]:
        at = steps.index("fn")
        steps = [*steps[:at], *steps[at + 1 :][: 2 if item.owner else 1]]
    if steps[0] != crate or steps[-1].removeprefix("+") != item.name:
        return False
    if not item.owner:
        return steps[:-1] == [crate, *module_of(item.path)]
    owner = rf"{item.owner}\w*{item.trait}\w*" if item.trait else rf"{item.owner}(\+\w+)*"
    return len(steps) > 2 and re.fullmatch(owner, steps[-2]) is not None


def goal_in(path: str, name: str) -> str:
    """A goal by the file that answers it: one of a closure is named with the closure."""
    steps = path.split("/")
    return f"{name} of the closure {steps[-2]}" if "fn" in steps[:-2] else name


def searched_goals(found: Iterable[re.Match[str]], lines: Sequence[str],
                   places: Sequence[tuple[str, int, int]]) -> list[str]:
    """The goals that search didn't prove of a function and of its closures, of which all this was found. Of one that
    has a proof file only a note says them, by its place in the source."""
    goals = list[str]()
    for name, says, rest in (it.groups() for it in found):
        path = f"{name.replace('::', '/')}/"
        left = [goal for words in LEFT.findall(rest) for goal in re.findall(r"`([^`]+)`", words)]
        if says == "not proved":
            noted = [it for it in map(NOTE.match, lines) if it]
            left += [it[3] for it in noted
                     if any(it[1] == at and first < int(it[2]) <= last + 1 for at, first, last in places)]
        goals += [goal_in(path, goal) for goal in left]
    return goals


def goals_of(lines: Sequence[str], texts: Mapping[str, str], item: Item, crate: str) -> Goals:
    """What a check of these texts leaves of a function."""

    def found_by(pattern: re.Pattern[str]) -> list[re.Match[str]]:
        matches = filter(None, map(pattern.match, lines))
        return [found for found in matches if is_of("::".join([crate, *found[2].split("/")]), item, crate)]

    said = [found for found in map(LINE.match, lines) if found and is_of(found[1], item, crate)]
    text = texts.get(item.path, "")
    same = [it for it in items_of(item.path, text) if it.key() == item.key()]
    # A note names the first line that belongs to a function, which may be that of an attribute.
    places = [(it.path, it.first - len(attributes_of(it, text.split("\n"))), it.last) for it in same]
    found = Goals(said, bool(said) and not any(it[2] not in ENDED or CALLS.search(it[3]) for it in said))
    found.searched = searched_goals(said, lines, places)
    for it in found_by(ERROR):
        if NAMES.search(it[4]):
            found.gone.append((it[1], it[3], it[4]))
        else:
            found.rejected.append((it[1], it[3]))
    # Where contracts are assumed, the check takes a rejected step by its signature, and doesn't say what rests on it.
    for path, name in list(found.rejected):
        found.rejected += [(path, other) for other in resting(texts.get(path, ""), name)]
    for path, name, _ in list(found.gone):
        found.gone += [(path, other, f"it rests on `{name}`") for other in resting(texts.get(path, ""), name)]
    for it in found_by(RESTS):
        if (it[1], it[3]) in found.rejected:
            found.rejected += [(it[1], name) for name in it[4].split(", ")]
        elif any((it[1], it[3]) == its[:2] for its in found.gone):
            found.gone += [(it[1], name, f"it rests on `{it[3]}`") for name in it[4].split(", ")]
    is_unread = any(not ERROR.match(it[0]) and not RESTS.match(it[0]) for it in found_by(UNREAD))
    found.is_whole &= not is_unread and (found.has_goal() or all(it[2] == "proved" for it in said))
    return found


def own_goal(goals: Goals, item: Item) -> str | None:
    """The goal of the function's contract that isn't proved, None if all is proved, or raises what is said instead."""
    if not goals.said:
        raise Unreadable(f"the check says nothing of {item.name}")
    if all(found[2] == "proved" for found in goals.said):
        return None
    if goals.contract():
        return goals.contract()[0]
    other = next(found for found in goals.said if found[2] != "proved")
    gone = [f"of its proof is said: `{name}`: {words}" for _, name, words in goals.gone]
    names = [*goals.searched, *(name for _, name in goals.rejected)]
    reasons = [f"{other[2]}{other[3]}", *[f"at `{goal}`" for goal in names], *gone]
    raise Unreadable(f"it is refused, but at no goal of the contract of {item.name}: {'; '.join(reasons)}"[:400])


def is_end_of_proof(found: re.Match[str]) -> bool:
    """Whether the last line of a check says that all is proved."""
    asked, proved, verdict, holes = found.groups()
    return verdict == "proved" or holes == "0" or asked is not None and asked == proved


def hold_to_verdict(lines: Sequence[str], status: int) -> None:
    """Raises where the check came to no verdict, by its last line, or where its status isn't the one of that
    verdict."""
    ends = [found for found in map(ENDS.fullmatch, lines) if found]
    is_proved = len(ends) == 1 and is_end_of_proof(ends[0])
    if len(ends) == 1 and (status == 1 or status == 0 and is_proved):
        return
    said = [line for line in lines if line.strip()]
    reason = next((line for line in said if STOPS.search(line)), said[-1] if said else "it said nothing")
    raise Unreadable(f"the check came to no verdict, and ended with status {status}: {reason}"[:300])


def named(item: Item) -> str:
    """A function's name, without the end of a copy's."""
    return f"{item.owner + '::' if item.owner else ''}{NUMBERED.sub('', item.name)}"


def outcome_of(touched: Sequence[Item], said: str, status: int, crate: str, texts: Mapping[str, str]) -> Outcome:
    """What a check of these texts says of one of the bodies that it read, by the functions that the body changes."""
    lines, reasons = said.split("\n"), []
    try:
        hold_to_verdict(lines, status)
    except Unreadable as reason:
        return Outcome(Verdict(NOT_REFUSED, str(reason)))
    goals = tuple(goals_of(lines, texts, item, crate) for item in touched)
    for item, its in zip(touched, goals):
        try:
            goal = own_goal(its, item)
        except Unreadable as reason:
            reasons.append(str(reason))
            continue
        if goal:
            return Outcome(Verdict(REFUSED, f"`{goal}` of {named(item)}"), goals)
    if reasons:
        return Outcome(Verdict(NOT_REFUSED, reasons[0]), goals)
    told = f"it is PROVED: no clause of {named(touched[0])} tells it from the right body"
    return Outcome(Verdict(NOT_REFUSED, told), goals)

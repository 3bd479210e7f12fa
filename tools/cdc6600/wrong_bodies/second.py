"""Checks the bodies that one check refused once more, since that check alone says little of the contract.

It refuses a right body in other words, too, if the tactics would have to open a definition for it, or if the function
has a written proof, which fits no other text. The second check opens the definitions that the goals may name
(opening.py), and leaves out the written answers that don't fit (written.py), so that search alone has to find these
goals. It also checks the right body, without all that is answered for its contract. The verdict rests on the goals that
neither check proves:

- There are none: the body isn't refused. No clause tells it from the right body.
- Nothing is written for the contract: such a goal refuses the body.
- Something is written: such a goal refuses the body if search proves it of the right body. A goal that the right body
  doesn't have counts so if search proves every goal of the same clause there.
- Otherwise it can't be told. The body may be wrong, or may only need another proof. The invariant of a loop is always
  of this kind, since it is written for the right body.

A goal that the first check proves counts as proved, since a search among opened definitions may give up.
"""

import re
from dataclasses import dataclass, field, replace
from pathlib import Path
from typing import Collection, Container, Iterable, Sequence

from cdc6600.crates.source import Item, Sources, names_in

from .copies import Copy, copy_of, written_folders
from .edits import Body, Region
from .opening import Opening, attributes_of, opened, own_lists
from .verdicts import CANT_TELL, CONTRACT, NOT_REFUSED, REFUSED, Goals, Outcome, Verdict, goal_in, named
from .written import declared, without

# What a file Invariants.antt states: it is part of the written proof.
STATED = re.compile("invariant-|requires$|ensures$")


def right(body: Body, name: str, source: Sources) -> Body:
    """The right body in the place of a wrong one, as if it were an edit of this name."""
    regions = [it._replace(lines=source.texts[it.path].split("\n")[it.start : it.end]) for it in body.regions]
    return replace(body, name=name, regions=regions)


def called(body: Body, item: Item) -> set[str]:
    """The names of what a body calls."""
    return item.names() | names_in("\n".join(line for region in body.regions for line in region.lines))


def unfit_answers(goals: Goals) -> set[tuple[str, str]]:
    """The answers that don't fit, by their file and their goal."""
    return {(path, name) for path, name, *_ in [*goals.rejected, *goals.gone] if path.endswith("/Answers.antt")}


@dataclass
class Again:
    """A body that is tried once more. For each function that it changes: what is opened, which answers don't fit and
    are left out, and the answers of all goals of the contract, by their files; then all that is written for the
    contract."""

    body: Body
    first: Outcome  # the outcome of its first check
    paths: list[list[str]] = field(default_factory=list)
    left_out: list[set[tuple[str, str]]] = field(default_factory=list)
    answers: list[set[tuple[str, str]]] = field(default_factory=list)
    written: list[set[str]] = field(default_factory=list)

    def is_another(self) -> bool:
        """Whether there is anything to be opened or left out."""
        return any(self.paths) or any(self.left_out) or any(self.written)


def again(body: Body, first: Outcome, opening: Opening, source: Sources, folder: Path) -> Again:
    """What is opened and left out for a body that a check refused."""
    found = Again(body, first)
    for item, goals in zip(body.touched, first.goals):
        own = own_lists(attributes_of(item, source.texts[item.path].split("\n")))["unfolding"]
        paths = opening.of(item, source, called(body, item))
        found.paths.append([path for path in paths if path not in own])
        found.left_out.append(unfit_answers(goals))
        answers, written = written_for(item, folder)
        found.answers.append(answers)
        found.written.append(written)
    return found


def written_for(item: Item, folder: Path) -> tuple[set[tuple[str, str]], set[str]]:
    """The answers that are written for the contract of a function and of its closures, by their file and their name,
    and the goals for which something is written: an answer or an invariant."""
    answers, written = set[tuple[str, str]](), set[str]()
    for file in (file for at in written_folders(item, folder) for file in sorted(at.glob("*.antt"))):
        path = str(file.relative_to(folder))
        text = file.read_text(encoding="utf-8")
        names = {name for name in declared(text) if CONTRACT.match(name) or STATED.match(name)}
        written |= {goal_in(path, name) for name in names}
        answers |= {(path, name) for name in names if file.name == "Answers.antt"}
    return answers, written


def in_place(it: Again, body: Body, left_out: Sequence[set[tuple[str, str]]], source: Sources,
             folder: Path) -> tuple[Body, dict[str, str]]:
    """A body with what is opened, to be tried in its place, and the texts of the proof files without these answers."""
    regions, texts = list(body.regions), dict[str, str]()
    for item, paths, names in zip(body.touched, it.paths, left_out):
        above = attributes_of(item, source.texts[item.path].split("\n"))
        start = item.first - len(above)
        if paths and not any(at.path == item.path and at.start < item.first and start < at.end for at in regions):
            regions.append(Region(item.path, start, item.first, opened(above, paths, item)))
        for path in {path for path, _ in names}:
            text = texts.get(path) or (folder / path).read_text(encoding="utf-8")
            texts[path] = without(text, {name for its, name in names if its == path})
    return replace(body, regions=regions), texts


def clause_of(goal: str) -> tuple[str, str]:
    """The clause of a goal, wherever in the function it is asked for."""
    return goal.split("-")[0], goal.partition("clause-")[2]


def left_of(first: Goals, second: Goals) -> list[str]:
    """The goals of the contract that neither of two checks proves."""
    goals, still = first.every(), second.every()
    if second.is_whole:
        return [goal for goal in still if goal in goals or not first.is_whole]
    return [goal for goal in goals if goal in still] or goals


def is_refusal(goal: str, control: Goals | None, written: Collection[str]) -> bool:
    """Whether it says something of the contract that search doesn't prove this goal of a body. `control` is what search
    leaves of the right body."""
    if not written:
        return True
    if is_of_loop(goal, written) or control is None or not control.is_whole:
        return False
    left = control.every()
    return goal not in left and (goal in written or clause_of(goal) not in map(clause_of, left))


def is_of_loop(goal: str, written: Container[str]) -> bool:
    """Whether a goal is that of a loop whose invariant is written."""
    return f"invariant-{goal.rpartition('-')[0]}" in written


def settled(it: Again, second: Outcome, control: Outcome | None) -> Verdict:
    """The verdict on a body, by its first check, its second one, and that of the right body, if there was one."""
    if not second.goals:
        return Verdict(NOT_REFUSED, f"once more, {second.verdict.words}{opened_words(it)}")
    unsure: list[tuple[str, Item]] = []
    for number, item in enumerate(it.body.touched):
        if not it.first.goals[number].contract():
            continue
        left = left_of(it.first.goals[number], second.goals[number])
        rights = control.goals[number] if control and control.goals else None
        found = [goal for goal in left if is_refusal(goal, rights, it.written[number])]
        if found:
            return Verdict(REFUSED, f"`{found[0]}` of {named(item)}")
        unsure += [(goal, item) for goal in left]
    if unsure:
        goal, item = unsure[0]
        is_loop = any(is_of_loop(goal, written) for written in it.written)
        why = "the invariant is written for" if is_loop else "search proves no more of"
        return Verdict(CANT_TELL, f"`{goal}` of {named(item)}: {why} the right body")
    words = "it is PROVED, each goal by one of two checks" if second.verdict.refused else second.verdict.words
    return Verdict(NOT_REFUSED, words + opened_words(it))


def opened_words(it: Again) -> str:
    """What was opened and left out, in words."""
    paths = sorted({path for paths in it.paths for path in paths})
    names = sorted({name for left_out in it.left_out for _, name in left_out})
    opened_here = [f"with {', '.join(paths)} opened"] if paths else []
    without_them = [f"without the written answers for {', '.join(names)}"] if names else []
    return f" ({' and '.join([*opened_here, *without_them])})"


def original(left_out: Iterable[tuple[str, str]], suffix: str) -> set[tuple[str, str]]:
    """The answers by the files of which a copy's are copies."""
    return {(path.replace(f"_{suffix}/", "/"), name) for path, name in left_out}


def copies_again(pairs: Sequence[tuple[Again, Copy]], source: Sources,
                 folder: Path) -> tuple[list[Copy], dict[tuple[str, str, str], Copy]]:
    """The copies of the bodies that are tried once more, and the copy of the right body for each function that has
    written answers, by the function's key."""
    copies, rights = list[Copy](), dict[tuple[str, str, str], Copy]()
    for it, copy in pairs:
        left_out = original(it.left_out[0], copy.suffix)
        copies.append(copy_of(it.body, copy.suffix, source, folder, it.paths[0], left_out))
        key = it.body.touched[0].key()
        if it.written[0] and key not in rights:
            body = right(it.body, f"the right body {len(rights)}", source)
            rights[key] = copy_of(body, f"right_{len(rights)}", source, folder, it.paths[0], it.answers[0])
    return copies, rights

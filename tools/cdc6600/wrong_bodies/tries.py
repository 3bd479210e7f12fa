"""Tries the wrong bodies of crates: gets the libraries that they stand on, and checks group after group.

A group is judged by one check: many copies beside the right bodies, or a body that can't stand so in the place of the
right one. The bodies that this check refuses are checked once more (second.py).

The libraries below are those that `rt ci` has left, or are proved first. Groups run side by side. What a check doesn't
change it assumes (assumed.py), so no group waits for another's work.
"""

from concurrent.futures import FIRST_COMPLETED, Future, ThreadPoolExecutor, wait
from dataclasses import dataclass, field
from pathlib import Path
from typing import Callable, Mapping, Sequence

from cdc6600.building import host
from cdc6600.building.library import left_by_rt_ci, proved_libraries
from cdc6600.building.processes import Ran, stop_all
from cdc6600.crates.source import Item, Sources, module_of
from cdc6600.crates.table import Table, Unreadable

from .assumed import assumed
from .checking import checked
from .copies import Copy, beside, can_stand_beside, copied, written_folders
from .edits import LET_THROUGH, UNSURE, Body, applied, read_bodies
from .kept import Row, Rows, sum_of, sum_of_crate
from .opening import Opening
from .second import again, copies_again, in_place, right, settled
from .verdicts import CANT_TELL, NOT_REFUSED, Outcome, Verdict, outcome_of


@dataclass
class Group:
    """Bodies that one check judges: in copies beside the right ones, or, without copies, one in its place."""

    bodies: list[Body]
    copies: list[Copy] = field(default_factory=list)
    proofs: dict[str, str] = field(default_factory=dict)  # files with answers left out, for a body in its place

    def texts(self, source: Sources) -> dict[str, str]:
        return beside(self.copies, source) if self.copies else applied(self.bodies[0], source) | self.proofs

    def functions(self) -> list[Item]:
        return [item for it in self.copies or self.bodies for item in it.touched]

    def outcomes(self, ran: Ran, crate: str, texts: Mapping[str, str]) -> dict[str, Outcome]:
        """What a check of these texts says of each body."""
        tried = self.copies or self.bodies
        found = [outcome_of(it.touched, ran.said, ran.status, crate, texts) for it in tried]
        return {body.name: outcome for body, outcome in zip(self.bodies, found)}


@dataclass
class Crate:
    """A crate whose bodies are tried: what is left to try, and what came of it. Its groups may run side by side.

    `rested` has the bodies with verdicts in the table, and `bodies` the other ones."""

    name: str
    source: Sources
    opening: Opening
    bodies: list[Body] = field(default_factory=list)
    rested: list[Body] = field(default_factory=list)
    groups: list[Group] = field(default_factory=list)
    rows: dict[str, Row] = field(default_factory=dict)  # for each body the row that a verdict on it would have
    verdicts: dict[str, Verdict] = field(default_factory=dict)  # by the name of the body
    faults: list[str] = field(default_factory=list)
    seconds: list[float] = field(default_factory=list)  # the processor time of each check


def read_crate(table: Table, name: str, logic: str, rows: Rows, is_run: bool) -> Crate:
    """Reads a crate's bodies and their known verdicts. A body of which the prover can't tell rests on that only if its
    edit says why nobody can tell. Bodies that the contract lets through are left out if no body is run."""
    source = Sources.read(table.folder(name))
    crate, total = Crate(name, source, Opening(table, name)), sum_of_crate(table, name)
    bodies, crate.faults = read_bodies(table.folder(name), source)
    for body in bodies:
        crate.rows[body.name] = Row(f"{name}/{body.name}", logic, sum_of(total, body.text))
        known = rows.get(crate.rows[body.name])
        is_rested = known and (known.kind != CANT_TELL or UNSURE in body.notes)
        if not known and LET_THROUGH in body.notes:
            known = Verdict(CANT_TELL, "its contract lets it through")
            if not is_run:
                continue
        (crate.rested if is_rested else crate.bodies).append(body)
        if known:
            crate.verdicts[body.name] = known
    left = [body for body in crate.bodies if body.name not in crate.verdicts]
    crate.groups = groups_of(left, source, table.folder(name))
    return crate


def groups_of(bodies: Sequence[Body], source: Sources, folder: Path) -> list[Group]:
    """The groups of bodies: copies of those that can stand beside the right ones, and each other one in its place."""
    beside_right = [body for body in bodies if can_stand_beside(body, source, folder)]
    copies = [Group([copy.body for copy in part], part) for part in copied(beside_right, source, folder)]
    return [*copies, *(Group([body]) for body in bodies if body not in beside_right)]


def paths_of(group: Group, source: Sources) -> list[str]:
    """What `rt check --only` is to prove for a group, or nothing where a path isn't known and all has to be proved."""
    found = {path_of(item, source) for item in group.functions()}
    return [] if None in found else sorted(path for path in found if path)


def path_of(item: Item, source: Sources) -> str | None:
    """A function's path below its crate. A method has the module of its type. One of a trait's, and one of a type at
    some arguments alone, isn't found by the type's name: its path is the whole module."""
    if not item.owner:
        return "::".join([*module_of(item.path), item.name])
    modules = source.types.get(item.owner, [])
    if len(modules) != 1:
        return None
    is_part = item.trait or item.within.is_instance
    return "::".join([*modules[0], *([] if is_part else [item.owner, item.name])]) or None


class Tries:
    """The run: the libraries that the crates stand on, and the groups that are left."""

    def __init__(self, table: Table, crates: Sequence[Crate], room: str, at_once: int) -> None:
        self.table, self.at_once = table, at_once
        # The checks of crates that stand on many others are the longest, and come first.
        self.crates = sorted(crates, key=lambda it: -len(table.below(it.name)))
        needed = {name for crate in crates if crate.groups for name in table.below(crate.name)}
        below = [name for name in table.lines if name in needed]
        self.libraries = left_by_rt_ci(table, below) or (proved_libraries(table, below, Path(room)) if below else {})

    def judged(self, crate: Crate, group: Group) -> dict[str, Verdict]:
        """The verdict on each body of a group, by its name."""
        try:
            return self.checked_twice(crate, group)
        except (Unreadable, OSError) as fault:
            return {body.name: Verdict(NOT_REFUSED, f"it wasn't tried: {fault}") for body in group.bodies}

    def checked_twice(self, crate: Crate, group: Group) -> dict[str, Verdict]:
        """Checks a group, and the bodies that this refuses once more; the verdicts.

        A copy that isn't refused is tried again in its place, since the fault may be another's."""
        found, beside_right = self.outcomes(crate, group), list[Copy]()
        for copy in group.copies:
            if found[copy.body.name].verdict.refused:
                beside_right.append(copy)
            else:
                found |= self.outcomes(crate, Group([copy.body]))
        verdicts = {name: outcome.verdict for name, outcome in found.items()}
        apart = {body.name for body in group.bodies} - {copy.body.name for copy in beside_right}
        verdicts |= self.copies_once_more(crate, beside_right, found)
        for body in (body for body in group.bodies if body.name in apart and verdicts[body.name].refused):
            verdicts |= self.once_more(crate, body, found[body.name])
        return verdicts

    def copies_once_more(self, crate: Crate, copies: Sequence[Copy],
                         found: Mapping[str, Outcome]) -> dict[str, Verdict]:
        """Checks copies that one check refused once more, and returns the verdicts on those for which something can be
        opened or left out."""
        folder = self.table.folder(crate.name)
        pairs = [(again(it.body, found[it.body.name], crate.opening, crate.source, folder), it) for it in copies]
        pairs = [(it, copy) for it, copy in pairs if it.is_another()]
        if not pairs:
            return {}
        changed, rights = copies_again(pairs, crate.source, folder)
        every = [*changed, *rights.values()]
        outcomes = self.outcomes(crate, Group([copy.body for copy in every], every))
        if len(pairs) > 1 and not all(outcomes[it.body.name].goals for it, _ in pairs):
            # The check came to no verdict, perhaps for the sake of one of them.
            each = [self.copies_once_more(crate, [copy], found) for _, copy in pairs]
            return {name: verdict for it in each for name, verdict in it.items()}
        names = {key: copy.body.name for key, copy in rights.items()}
        controls = [outcomes.get(names.get(it.body.touched[0].key(), "")) for it, _ in pairs]
        return {it.body.name: settled(it, outcomes[it.body.name], control) for (it, _), control in zip(pairs, controls)}

    def once_more(self, crate: Crate, body: Body, first: Outcome) -> dict[str, Verdict]:
        """Checks a body that one check refused in its place once more, and returns the verdict on it, if something can
        be opened or left out."""
        source, folder = crate.source, self.table.folder(crate.name)
        it, control = again(body, first, crate.opening, source, folder), None
        if not it.is_another():
            return {}

        def outcome(tried: Body, left_out: Sequence[set[tuple[str, str]]]) -> Outcome:
            there, proofs = in_place(it, tried, left_out, source, folder)
            return self.outcomes(crate, Group([there], proofs=proofs))[body.name]

        second = outcome(body, it.left_out)
        if any(it.written):
            control = outcome(right(body, body.name, source), it.answers)
        return {body.name: settled(it, second, control)}

    def outcomes(self, crate: Crate, group: Group) -> dict[str, Outcome]:
        texts, paths = group.texts(crate.source), paths_of(group, crate.source)
        wrong, folder = [] if group.copies else group.functions(), self.table.folder(crate.name)
        files = [file for item in wrong for at in written_folders(item, folder) for file in at.glob("*.antt")]
        proofs = {str(file.relative_to(folder)): file.read_text(encoding="utf-8") for file in files}
        changed = assumed(crate.source, folder, wrong, texts)
        # A check of a path of which it knows no function has the status 2: then all of the crate is proved.
        for only in ([paths] if not paths else [paths, []]):
            ran = checked(self.table, crate.name, self.libraries, changed, only)
            crate.seconds.append(ran.seconds)
            if ran.status != 2:
                break
        read = {path: text for path, text in changed.items() if text is not None}
        return group.outcomes(ran, crate.name, {**crate.source.texts, **proofs, **read})

    def run(self, is_tried: Callable[[Crate], None]) -> None:
        """Checks the groups side by side, each once there is memory for it. It hands out each crate once all its groups
        are tried."""
        left = [(crate, group) for crate in self.crates for group in crate.groups]
        busy: dict[Future[dict[str, Verdict]], Crate] = {}
        with ThreadPoolExecutor(self.at_once) as pool:
            try:
                while left or busy:
                    while left and len(busy) < self.at_once and (not busy or host.free_memory() >= host.NEEDED):
                        crate, group = left.pop(0)
                        busy[pool.submit(self.judged, crate, group)] = crate
                    for ended in wait(busy, timeout=10, return_when=FIRST_COMPLETED).done:
                        crate = busy.pop(ended)
                        crate.verdicts |= ended.result()
                        if all(it is not crate for it in [*busy.values(), *(it for it, _ in left)]):
                            is_tried(crate)
            except BaseException:
                stop_all()
                raise

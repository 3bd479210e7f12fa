"""Tests tools/wrong-bodies on the small workspace of tests/tiny.workspace, in a minute or two.

Each edit below is handed to the runner as a wrong body. Those of REFUSED are wrong. Each of TOLD has to be told, in a
line that says what is amiss: among them are right bodies in other words. Of those of UNSURE the prover can't tell.

Run it after a change of it, or of the kit.
"""

from __future__ import annotations

import re
from pathlib import Path
from typing import Any, Sequence

import pytest
from running import Ended, called

from cdc6600.building import unproved
from cdc6600.crates.source import Sources
from cdc6600.crates.table import Table
from cdc6600.refuting.cases import TIMED_OUT, Ran
from cdc6600.refuting.choosing import Choice, with_bodies
from cdc6600.shared.program import ROOT
from cdc6600.wrong_bodies.assumed import as_proved, assumed
from cdc6600.wrong_bodies.copies import beside, can_stand_beside, copied
from cdc6600.wrong_bodies.edits import LET_THROUGH, UNSURE as NOT_SURE, read_bodies, read_body
from cdc6600.wrong_bodies.kept import ROWS, read_rows, sum_of_contracts, sum_of_crate
from cdc6600.wrong_bodies.opening import opened
from cdc6600.wrong_bodies.verdicts import is_of, outcome_of
from cdc6600.wrong_bodies.written import resting, without

Edit = Sequence[str]
CRATE = Path("crates/tiny")
# The files of the workspace, each below a line `==> PATH <==`. They aren't files of their own, since the kit would take
# them for a part of this repository.
TEXT = (ROOT / "tests/tiny.workspace").read_text(encoding="utf-8")
TINY = dict(re.findall(r"^==> ([^\n]*) <==\n(.*?)(?=^==> |\Z)", TEXT, re.MULTILINE | re.DOTALL))
# The old text of each edit and the new one; some have two pairs.
REFUSED: dict[str, Edit] = {
    "adds_two": ("    x + 1", "    x + 2"),
    "adds_one_once": ("    plus_one(one)", "    plus_one(x)"),
    "larger_of_two": ("if a < b { a } else { b }", "if a < b { b } else { a }"),
    "with_no_other": ("        plus_one(self.count)", "        self.count"),
    "too_heavy": ("        100", "        200"),
    "closure_adds_one_once": ("        plus_one(after)", "        plus_one(y)"),
    "two_after_the_next": ("    two_more(x)", "    two_more(x + 1)"),
    "none_is_double": ("    number + number", "    number - number"),
    "most_is_eleven": ("pub const MOST: u64 = 10;", "pub const MOST: u64 = 11;"),
}
# The one that changes a constant, which only a contract names.
OF_CONSTANT = "most_is_eleven"
# What the runner says of each edit that is no wrong body, and the edit.
TOLD: dict[str, tuple[str, Edit]] = {
    "right": ("it is PROVED", ("if a < b { a } else { b }", "if b < a { b } else { a }")),
    "comment_in_a_body": ("it is PROVED", ("// One more.", "// Two more.")),
    "closure_called_first": ("it is PROVED", ("    again(x)", "    let found = again(x); found")),
    "beneath_a_weak_contract": ("it is PROVED", ("    x + x", "    x")),
    "definition_to_be_opened": (
        "with crate::specs::After::two_after opened", ("    two_more(x)", "    plus_one(plus_one(x))"),
    ),
    "answer_does_not_fit": (
        "without the written answers for returns",
        ("let one = plus_one(x);", "let one = plus_one(x + 1);", "    plus_one(one)", "    plus_one(one) - 1"),
    ),
    "name_gone": (
        "at no goal of the contract of two_more",
        ("let one = plus_one(x);", "let first = plus_one(x);", "    plus_one(one)", "    plus_one(first)"),
    ),
    "comment_beside_it": (
        "it changes no function", ("/// The number after this one.", "/// The next number."),
    ),
    "contract_changed": ("it changes a contract", ("result < 200", "result < 300")),
    "not_there": ("stands 0 times", ("    x + 7", "    x + 8")),
    "there_twice": ("stands 3 times", ("requires { x < 90 }", "requires { x < 91 }")),
}
# A right body in other words and a wrong one, where search alone doesn't prove the right one either.
UNSURE: dict[str, Edit] = {
    "doubled_by_a_product": ("    number + number", "    2 * number"),
    "one_more_than_double": ("    number + number", "    number + number + 1"),
}
# How the line of each edit begins, and what is in it.
SAID = {
    **{name: (f"tiny/{name}: refused at `", "") for name in REFUSED},
    **{name: (f"NOT REFUSED tiny/{name}: ", reason) for name, (reason, _) in TOLD.items()},
    **{name: (f"CAN'T TELL tiny/{name}: `returns-clause-is` of double", "") for name in UNSURE},
}
# One at which the check comes to no verdict, so that all of its group are tried again.
NO_VERDICT: Edit = ("if a < b { a } else { b }", "if a < b { a } else { c }")

# A crate above the other one.
ABOVE = """//! A function that calls another crate.
#![tactic(auto)]

ghost use Rattle.std.specs.Prelude.{◌≡◌, ◌+◌, ◌<◌};

/// The number after the next one.
pub fn two_on(x: u64) -> u64
    requires { x < 90 }
    ensures { result ≡ x + 2 }
{
    let next = tiny::plus_one(x);
    next + 1
}
"""

# What a check may say of a function, and its last line.
LEFT = "fn tiny::plus_two: no proof: `search` did not prove `returns`"
SEARCHED = LEFT.replace("plus_two", "plus_one")
ANSWERED = SEARCHED.replace("`search`", "expected answers in ./proofs/plus_one/Answers.antt; `search`")
CALLING = "fn tiny::plus_one: no proof: it calls `tiny::least`, which is not proved"
ERROR, NOT_PROVED = "./proofs/plus_one/Answers.antt:1:2: error: ", "fn tiny::plus_one: not proved"
RESTS = f"{ERROR}2 declarations that depend on `step`, which was rejected, were not checked: "
RESTS += "returns-clause-a, returns-clause-b"
END = "only=1 proved=0"
# The status of a check, what it says, and the goal at which it refuses the body, if it does.
VERDICTS: dict[str, tuple[int, Edit, str | None]] = {
    "an own goal": (1, (ANSWERED, END), "returns"),
    "a call": (1, (CALLING, END), None),
    "a goal of another": (1, (ANSWERED.replace("plus_one", "plus_two"), END), None),
    "both": (1, (ANSWERED.replace("`returns`", "`least-requires`, `returns`"), END), "returns"),
    "what a call requires": (1, (ANSWERED.replace("`returns`", "`least-requires`"), END), None),
    "a limit": (1, (ANSWERED.replace("`returns`", "`sum-in-range`"), END), None),
    "an answer": (1, (f"{ERROR}`returns`: the two types differ", NOT_PROVED, END), "returns"),
    "a name that is gone": (1, (f"{ERROR}`returns`: `one` is not in scope", NOT_PROVED, END), None),
    "a step": (1, (f"{ERROR}`step`: the two types differ", RESTS, NOT_PROVED, END), "returns-clause-a"),
    "a step that is gone": (1, (f"{ERROR}`step`: record `R` has no field `one`", RESTS, NOT_PROVED, END), None),
    "no step": (1, (RESTS, NOT_PROVED, END), None),
    "nothing": (1, (), None),
    "no end": (1, (SEARCHED,), None),
    "only the end": (1, (END,), None),
    "status 2": (2, (SEARCHED, END), None),
    "status 3": (3, (SEARCHED, END), None),
    "status 0, not proved": (0, (SEARCHED, "logic=not-proved"), None),
    "status 0, one proved": (0, (SEARCHED, "only=2 proved=1"), None),
    "not proved twice": (1, (SEARCHED, "logic=not-proved", "logic=not-proved"), None),
    "one proved twice": (1, (SEARCHED, "only=2 proved=1", "only=2 proved=1"), None),
}


def text_of(path: str) -> str:
    """A file of the crate."""
    text: str = TINY[f"{CRATE}/{path}"]
    return text


LIBRARY, PROOF = text_of("src/lib.rt"), text_of("proofs/two_more/Answers.antt")


def write_edits(root: Path, edits: dict[str, Edit]) -> Path:
    """Writes edits into the workspace, which is made if it isn't there; its folder."""
    for path, text in TINY.items():
        (root / path).parent.mkdir(parents=True, exist_ok=True)
        (root / path).write_text(text, encoding="utf-8")
    (root / CRATE / "wrong-bodies").mkdir(exist_ok=True)
    for name, edit in edits.items():
        lines = [f"old: {old}\nnew: {new}\n" for old, new in zip(edit[::2], edit[1::2])]
        text = "file: src/lib.rt\n" + "".join(lines)
        (root / CRATE / f"wrong-bodies/{name}.edit").write_text(text, encoding="utf-8")
    return root


# ---- what needs no prover: edits, copies, and the words of the check ----


class Tiny:
    """The crate with the edits of REFUSED, which is only read."""

    def __init__(self, root: Path) -> None:
        self.crate, self.table = write_edits(root, REFUSED) / CRATE, Table(root)
        self.source = Sources.read(self.crate)
        self.bodies = {body.name: body for body in read_bodies(self.crate, self.source)[0]}

    def item(self, name: str) -> Any:
        """The function that a body changes."""
        return self.bodies[name].touched[0]

    def outcome(self, name: str, *lines: str, status: int = 1, texts: dict[str, str] | None = None) -> Any:
        """What a check with these further texts and this status says of a body."""
        said, texts = "\n".join(lines), self.source.texts | (texts or {})
        return outcome_of(self.bodies[name].touched, said, status, "tiny", texts)


@pytest.fixture(scope="session")
def tiny(tmp_path_factory: pytest.TempPathFactory) -> Tiny:
    """The crate."""
    return Tiny(tmp_path_factory.mktemp("tiny"))


def test_copy_stands_beside(tiny: Tiny) -> None:
    apart = [name for name, body in tiny.bodies.items() if not can_stand_beside(body, tiny.source, tiny.crate)]
    assert sorted(apart) == [OF_CONSTANT, "too_heavy"]
    (copies,) = copied([tiny.bodies["adds_one_once"], tiny.bodies["with_no_other"]], tiny.source, tiny.crate)
    texts = beside(copies, tiny.source)
    library, inline = texts["src/lib.rt"], "    #[inline]\n    pub fn with_another"
    assert "pub fn two_more(" in library and f"{inline}(" in library
    assert "    plus_one(x)\n}" in library.partition("pub fn two_more_wrong_0(")[2]
    assert "        self.count\n    }" in library.partition(f"{inline}_wrong_1(")[2]
    wanted = PROOF.replace("tiny.proofs.two_more.", "tiny.proofs.two_more_wrong_0.")
    assert texts["proofs/two_more_wrong_0/Answers.antt"] == wanted


def test_each_body_is_behind_its_number(tiny: Tiny) -> None:
    chosen = with_bodies(tiny.source, [*tiny.bodies.values()])
    assert chosen.numbers.keys() == REFUSED.keys() - {OF_CONSTANT}
    arm = f"{{\nif crate::chosen_body() == {chosen.numbers['larger_of_two']} {{\n    if a < b {{ b }} else {{ a }}\n}}"
    assert f"{arm} else\n{{\n    if a < b {{ a }} else {{ b }}\n}}\n}}" in chosen.texts["src/lib.rt"]


def test_tests_are_built_beside_the_program(tiny: Tiny, tmp_path: Path, monkeypatch: pytest.MonkeyPatch) -> None:
    monkeypatch.setattr(unproved, "build", lambda *_, **__: tiny.crate / "src/lib.rt")
    choice = Choice(tiny.table, tmp_path)
    assert choice.built("tiny", False).room != choice.built("tiny", True).room


@pytest.mark.parametrize("status, printed, told", [
    (0, b"ok\nE1 halted\n", None),
    (0, b"ok\nok\n", "`ok` in place of `E1 halted`"),
    (0, b"ok\nE1 halted\nok\n", "`ok` in place of `status 0`"),
    (0, b"ok\nE1 halted", "other bytes in these lines"),
    (TIMED_OUT, b"ok\n", "`no end in 30 seconds` in place of `E1 halted`"),
])
def test_first_difference_is_told(status: int, printed: bytes, told: str | None) -> None:
    assert Ran(status, printed, b"").differs(Ran(0, b"ok\nE1 halted\n", b"")) == told


@pytest.mark.parametrize("word", [LET_THROUGH, NOT_SURE])
def test_reason_is_read(tiny: Tiny, tmp_path: Path, word: str) -> None:
    file = tmp_path / "body.edit"
    file.write_text(f"file: src/lib.rt\nold:     x + x\nnew:     x * 2\n{word}: it is twice\n", encoding="utf-8")
    assert read_body(file, tiny.source).notes == {word: "it is twice"}


def test_closure_proof_is_copied(tiny: Tiny) -> None:
    ((copy,),) = copied([tiny.bodies["closure_adds_one_once"]], tiny.source, tiny.crate)
    old, new = (f"proofs/fn/{name}/again/Answers.antt" for name in ("by_closure", "by_closure_wrong_0"))
    wanted = text_of(old).replace("proofs.fn.by_closure.", "proofs.fn.by_closure_wrong_0.")
    assert [tuple(it) for it in copy.proofs] == [(new, old, wanted)]
    for name in ("tiny::fn::by_closure_wrong_0::again", "tiny::by_closure_wrong_0"):
        assert is_of(name, copy.item, "tiny")


@pytest.mark.parametrize("name, is_its", [("with_another", True), ("weight", False)])
def test_closure_is_of_its_method(tiny: Tiny, name: str, is_its: bool) -> None:
    assert is_of(f"tiny::fn::Few::{name}::again", tiny.item("with_no_other"), "tiny") == is_its


def test_attribute_keeps_its_lists(tiny: Tiny) -> None:
    c, d = "crate::specs::A::c", "crate::specs::A::d"
    tactic = "    #[tactic(auto, using(crate::proofs::A::b), unfolding({}))]"
    found = opened(["    /// A word.", tactic.format(c), "    #[inline]"], [c, d], tiny.item("with_no_other"))
    assert found == ["    /// A word.", "    #[inline]", tactic.format(f"{c}, {d}")]


def test_what_nothing_cites_is_left_out() -> None:
    used = "use Rattle.tiny.proofs.f.Goals.{{{}}}"
    other = "pub index-requires : goal.index-requires\nindex-requires c = c.then-b\n"
    text = f"""{used.format("then-a, else-a, then-b")}

pub returns : goal.returns
unfolding g
returns c =
    step [ then-a w ↦ w ]

step : else-a → ℕ
step c = 0

{other}"""
    assert without(text, {"returns"}).split() == f"{used.format('then-b')}\n{other}".split()
    assert without(text, {"step"}) == without(text, {"returns"})
    assert without(text, set()) == text


def test_contracts_of_right_bodies_are_assumed(tiny: Tiny) -> None:
    texts = assumed(tiny.source, tiny.crate, tiny.bodies["adds_two"].touched, {"src/lib.rt": LIBRARY})
    assert "two_more_spec = ?" in str(texts["proofs/two_more/Proof.antt"]) and "proofs/two_more/Answers.antt" in texts
    assert not any("plus_one" in path or "weight" in path for path in texts)
    library = str(texts["src/lib.rt"])
    assert "    plus_one(one)\n" in LIBRARY and "    plus_one(one)\n" not in library
    assert "    // One more.\n    x + 1\n" in library


@pytest.mark.parametrize("said, wanted", [
    (
        f"fn tiny::plus_one: depends on a hole in `Rattle.tiny.proofs.plus_one.Proof.plus_one_spec`\n"
        f"{LEFT}; it calls `tiny::plus_one`, which is not proved\n{LEFT}; it calls `tiny::least`, which is not proved",
        f"fn tiny::plus_one: proved\n{LEFT}\n{LEFT}; it calls `tiny::least`, which is not proved",
    ),
    ("fn tiny::least: no holes", "fn tiny::least: proved"),
], ids=["a hole", "no holes"])
def test_assumed_contract_counts_as_proved(said: str, wanted: str) -> None:
    assert as_proved(said) == wanted


@pytest.mark.parametrize("status, lines, goal", VERDICTS.values(), ids=VERDICTS)
def test_verdict(tiny: Tiny, status: int, lines: Edit, goal: str | None) -> None:
    verdict = tiny.outcome("adds_two", *lines, status=status).verdict
    assert verdict.refused == bool(goal)
    assert not goal or verdict.words == f"`{goal}` of plus_one"


def test_note_at_an_attribute_is_of_its_function(tiny: Tiny) -> None:
    item = tiny.item("adds_two")
    lines = tiny.source.texts[item.path].split("\n")
    lines.insert(item.first, "#[tactic(auto)]")
    note = f"note: {item.path}:{item.number}:1: it is not proved that what the function ensures holds (`returns`)"
    found = tiny.outcome("adds_two", note, NOT_PROVED, END, texts={item.path: "\n".join(lines)})
    assert found.goals[0].contract() == ["returns"]


def test_what_rests_on_a_step_is_found(tiny: Tiny) -> None:
    text = "step : ℕ\nstep = 0\n\nother : ℕ\nother = step\n\npub returns : goal.returns\nreturns c = other\n"
    assert resting(text, "step") == ["other", "returns"]
    path = "proofs/two_more/Answers.antt"
    said = f"./{path}:1:2: error: `step`: the two types differ", "fn tiny::two_more: not proved", "only=1 holes=3"
    assert tiny.outcome("adds_one_once", *said, texts={path: text}).verdict.words == "`returns` of two_more"


# ---- the runner as a whole, with the prover ----


def runs(root: Path, *words: str) -> Ended:
    """How the runner ends on a workspace."""
    return called("tools/wrong-bodies", "--root", root, "--at-once", "1", *words, minutes=60)


def has_line(ran: Ended, begin: str, part: str = "") -> bool:
    """Whether a line begins so, and has this in it."""
    return any(line.startswith(begin) and part in line for line in ran.lines)


def counted(tried: int, let_through: int = 0, unsure: int = 0) -> str:
    """The last line but one."""
    return f"{tried} wrong bodies, {let_through} not refused, {unsure} can't tell"


def add_to(file: Path, text: str) -> None:
    with file.open("a", encoding="utf-8") as it:
        it.write(text)


def tried(ran: Ended) -> list[str]:
    """The bodies that the prover tried in a run in which it refused each."""
    assert ran.status == 0, ran.printed
    return sorted(line.split(":")[0] for line in ran.lines if ": refused at " in line)


@pytest.fixture(scope="session")
def every(tmp_path_factory: pytest.TempPathFactory) -> Ended:
    """How the runner ends on every edit."""
    edits = REFUSED | {name: edit for name, (_, edit) in TOLD.items()} | UNSURE
    return runs(write_edits(tmp_path_factory.mktemp("every"), edits), "--prover")


@pytest.mark.parametrize("begin, part", SAID.values(), ids=SAID)
def test_edit(every: Ended, begin: str, part: str) -> None:
    assert has_line(every, begin, part)


def test_count(every: Ended) -> None:
    assert (every.status, every.lines[-2]) == (1, counted(len(SAID), len(TOLD), len(UNSURE)))


def test_fault_of_another_is_not_told(tmp_path: Path) -> None:
    ran = runs(write_edits(tmp_path, {"adds_two": REFUSED["adds_two"], "no_such_name": NO_VERDICT}))
    assert (ran.status, ran.lines[-2]) == (1, counted(2, 1))
    assert has_line(ran, *SAID["adds_two"]) and has_line(ran, "NOT REFUSED tiny/no_such_name: ", "error[")


def test_table_is_rested_on(tmp_path: Path) -> None:
    """Only those are tried for which something has changed since the table was written."""
    names = [f"tiny/{name}" for name in ("adds_two", "larger_of_two")]
    write_edits(tmp_path, {name.removeprefix("tiny/"): REFUSED[name.removeprefix("tiny/")] for name in names})
    assert [tried(runs(tmp_path)), tried(runs(tmp_path, "--write", "tiny"))] == [names, names]
    add_to(tmp_path / CRATE / "src/lib.rt", "\n// No code.\n")
    ran = runs(tmp_path)
    assert tried(ran) == [] and ran.lines[-3:-1] == [f"2 verdicts are those of {ROWS}", counted(2)]
    assert tried(runs(tmp_path, "--all")) == names
    rows = {row.body: verdict.words for row, verdict in read_rows(tmp_path).items()}
    assert [*rows] == names and rows[names[0]] == "`returns` of plus_one"
    edit = "file: src/lib.rt\nold:     x + 1\nnew:     x + 3\n"
    (tmp_path / CRATE / "wrong-bodies/adds_two.edit").write_text(edit, encoding="utf-8")
    assert tried(runs(tmp_path)) == [names[0]]
    add_to(tmp_path / CRATE / "specs/After.antt", "\npub once_more : ℕ → ℕ\nonce_more x = x\n")
    assert tried(runs(tmp_path)) == names
    file = tmp_path / ROWS
    file.write_text(file.read_text(encoding="utf-8").replace("`returns` of", "`first` of"), encoding="utf-8")
    told = f"tools/wrong-bodies: {ROWS}: it isn't as `tools/wrong-bodies --write` has written it"
    assert runs(tmp_path).lines[0] == told


def test_contracts_below_count(tmp_path: Path) -> None:
    """The sum of a crate changes with the contracts below it, and with no body, comment or test there."""
    write_edits(tmp_path, {})
    source = tmp_path / CRATE / "src/lib.rt"

    def total() -> str:
        sum_of_contracts.cache_clear()
        return sum_of_crate(Table(tmp_path), "above")

    (tmp_path / "crates.txt").write_text("tiny:\nabove: tiny\n", encoding="utf-8")
    before = total()
    other = LIBRARY.replace("    x + 1\n", "    1 + x\n").replace("// One more.", "// More.")
    source.write_text(other, encoding="utf-8")
    (tmp_path / CRATE / "src/tiny_tests.rt").write_text("fn one() {}\n", encoding="utf-8")
    assert total() == before
    source.write_text(LIBRARY.replace("result ≡ x + 1", "result ≡ 1 + x"), encoding="utf-8")
    assert total() != before


def test_libraries_below_are_proved_first(tmp_path: Path) -> None:
    write_edits(tmp_path, {})
    (tmp_path / "crates.txt").write_text("tiny:\nabove: tiny\n", encoding="utf-8")
    above = tmp_path / "crates/above"
    files = {"src/lib.rt": ABOVE, "wrong-bodies/adds_one_once.edit": "file: src/lib.rt\nold: next + 1\nnew: next\n"}
    for path, text in files.items():
        (above / path).parent.mkdir(parents=True)
        (above / path).write_text(text, encoding="utf-8")
    assert tried(runs(tmp_path, "--all")) == ["above/adds_one_once"]


def test_unlisted_crate_is_told(tmp_path: Path) -> None:
    (write_edits(tmp_path, {}) / "crates.txt").write_text("# nothing\n", encoding="utf-8")
    ran = runs(tmp_path, "tiny")
    assert (ran.status, ran.lines[0]) == (1, "tools/wrong-bodies: tiny: crates.txt lists no such crate")

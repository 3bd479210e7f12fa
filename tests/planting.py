"""The source of an emulator that has many faults and shows the one that its first argument numbers. So one call of
`rustc` builds them all.

It is bench/replaying/plain.rs with the faults of planted_faults.txt. For each row of the instruction table it also has
a fault that carries out another row instead, and for each edge of a row one that is wrong there and right elsewhere."""

from __future__ import annotations

import re
from collections import defaultdict
from dataclasses import dataclass
from itertools import count
from pathlib import Path

from cdc6600.comparing.edges import INCREMENTS, NOMINAL, edges_of, is_branch
from cdc6600.shared.instructions import ROWS
from cdc6600.shared.program import ROOT

PLAIN = (ROOT / "bench/replaying/plain.rs").read_text(encoding="utf-8")
FAULTS = Path(__file__).with_name("planted_faults.txt")
# The line before the interpreter's arms, where the arms with faults go.
MATCH = "        match op {\n"
# The number of the fault comes before the log.
LOG, LOG_AFTER = "std::env::args().nth(1)", "std::env::args().nth(2)"
CHOOSING = """
thread_local! {
    static CHOSEN: usize = std::env::args().nth(1).and_then(|it| it.parse().ok()).expect("a number");
}

fn planted() -> usize {
    CHOSEN.with(|it| *it)
}
"""
JUMP, RETURN_JUMP, STOP, PASS = "02", "010", "00", "46"
# The effect of each row on its computed value, by the beginning of its code.
EFFECTS = {JUMP: "self.jump({})", "0": "self.jump_if({}, address)", "5": "self.set_a(i, {})", "6": "self.set_b(i, {})",
           "7": "self.x[i] = extended({})", "": "self.x[i] = {}"}
# The row that is carried out instead of a row, if it isn't the next one, or the value that is computed instead.
INSTEAD = {"20": "21", "21": "20", "22": "23", "23": "22", "36": "37", "37": "36", "17": "10", "037": "030", "07": "04"}
COMPUTED_INSTEAD = {
    JUMP: "address", "43": "ONES60 >> jk.min(60)", "47": "60 - u64::from(self.x[k].count_ones())",
}
# The numbers of 18 and 60 bits that have all of them, and the count that replaces a count at an edge.
ONES18, ONES60, COUNT = (1 << 18) - 1, (1 << 60) - 1, 30
LINK, GO = "self.store(address, 0o0400 << 48 | u64::from(next) << 30);", "self.jump((address + 1) & ONES18)"
RETURNING = {
    "": f"self.store(address, 0); {GO}",
    "K 0": f"{LINK} if address == 0 {{ self.jump(0) }} else {{ {GO} }}",
    "K 777777": f"{LINK} self.jump(add18(address, 1))",
    "P+1 400000": f"let next = next & 0o377777; {LINK} {GO}",
    "store in": f"let next = next - 1; {LINK} {GO}",
    "store out": f"{LINK} if self.absolute(address).is_some() {{ {GO} }}",
    "store own": f"if address + 1 != next {{ {LINK} }} {GO}",
}
# The wrong references to the address `sum`.
REFERRING = {
    "load in": "self.set_a(i, sum); if matches!(i, 1..=5) && self.absolute(sum).is_some() { self.x[i] ^= 1 }",
    "load out": "self.set_a(i, sum); if matches!(i, 1..=5) && self.absolute(sum).is_none() { self.x[i] = ONES60 }",
    "store in": "self.set_a(i, sum); if i > 5 { if let Some(at) = self.absolute(sum) { self.memory[at] ^= 1 } }",
    "store out": "self.set_a(i, sum); let at = sum as usize % self.memory.len(); "
                 "if i > 5 && self.absolute(sum).is_none() { self.memory[at] = self.x[i] }",
    "store own": "self.set_a(i, sum); "
                 "if i > 5 && sum + 1 == next && self.held.is_some() { self.held = Some(self.x[i]) }",
}


@dataclass(frozen=True)
class Planted:
    """A fault of planted_faults.txt."""

    name: str
    old: str
    new: str
    steps: str
    deck: str

    @classmethod
    def read(cls, text: str) -> Planted:
        """Reads the lines of a fault."""
        name, *lines = text.splitlines()
        parts = defaultdict[str, list[str]](list)
        for mark, _, part in (line.partition(" ") for line in lines):
            parts[mark].append(part)
        return cls(name, *("\n".join(parts[mark]) for mark in ("-", "+", "at", "in")))


def effect_of(code: str, computed: str) -> str:
    """The effect of a row on a computed value."""
    return next(text for begins, text in EFFECTS.items() if code.startswith(begins)).replace("{}", computed)


def computed_by(code: str) -> str:
    """The value that a row computes, as the interpreter's source has it; a branch computes whether it jumps."""
    if code[0] in INCREMENTS:
        pattern = f"^ +{code[1] if code[1] < '7' else '_'} => (add18.*),$"
    else:
        pattern = f"^ +0o{code[:2]} => {re.escape(effect_of(code, 'VALUE')).replace('VALUE', '(.*)')},$"
    found = re.search(pattern, PLAIN, re.MULTILINE)
    assert found, f"the interpreter has no arm for {code}"
    return found[1].replace("x_holds(i", f"x_holds({code[2:]}")


def done_by(code: str) -> str:
    """The interpreter's statement for a row."""
    if code == PASS:
        return ""
    return f"{LINK} {GO}" if code == RETURN_JUMP else effect_of(code, computed_by(code))


def done_instead(code: str) -> str:
    """A wrong statement for a row: for most rows that of the next row."""
    if code in (PASS, RETURN_JUMP):
        return RETURNING[""] if code == RETURN_JUMP else "self.jump(next)"
    following = f"{code[:-1]}{(int(code[-1]) + 1) % 8}"
    return effect_of(code, COMPUTED_INSTEAD.get(code) or computed_by(INSTEAD.get(code, following)))


def changed(value: str, pattern: str, other: str) -> str:
    """The value, or another one if a pattern fits it, which may name it as `it`."""
    return f"(match {value} {{ it @ {pattern} => {other}, it => it }})"


def numbers_at(name: str, ones: int) -> str:
    """The pattern of the numbers that are an edge, among those of which `ones` has all bits."""
    if name in ("max", "min"):
        return f"{ones >> 1 if name == 'max' else ones - (ones >> 1)}"
    first = int(name[1:].removesuffix("up"))
    last = ones >> 1 if name.endswith("up") else first
    return f"{first}..={last}" if name[0] == "+" else f"{ones - last}..={ones - first}"


def operand_of(code: str, part: str) -> tuple[str, int]:
    """An operand in the interpreter's source, and the number that has all of its bits."""
    if not part[0] in "ABX":
        return {"K": "address"}.get(part, part), ONES18
    register = f"self.{part[0].lower()}[{part[1]}]"
    if part[0] != "X":
        return register, ONES18
    return (f"low18({register})", ONES18) if code[0] in INCREMENTS else (register, ONES60)


def wrong_test(code: str, part: str, name: str) -> str:
    """The statement of a branch that decides wrongly at an edge of an operand."""
    value, ones = operand_of(code, part)
    is_at = f"{value} >> 48 == 0o{name}" if name.isdecimal() else f"matches!({value}, {numbers_at(name, ones)})"
    return effect_of(code, f"({computed_by(code)}) != ({is_at})")


def wrong_operand(code: str, part: str, name: str) -> str:
    """The statement of a row that takes an operand at an edge for another one."""
    value, ones = operand_of(code, part)
    if part == "jk":
        taken = changed(value, name, f"{COUNT}")
    elif code in NOMINAL and part == "Bj":
        taken = changed(value, numbers_at(name, ones), f"{COUNT if name[0] == '+' else ones - COUNT}")
    else:
        taken = changed(value, numbers_at(name, ones), f"{ones} - it")
    return effect_of(code, computed_by(code).replace(value, taken))


def wrong_result(code: str, name: str) -> str:
    """The statement of a row whose result is wrong at an edge."""
    if name == "none":
        return f"{done_by(code)}; if i == 0 {{ self.b[0] = 1 }}"
    ones = ONES18 if code[0] in INCREMENTS else ONES60
    return effect_of(code, changed(computed_by(code), numbers_at(name, ones), f"{ones} - it"))


def wrong_target(code: str, name: str) -> str:
    """The statement of a jump that goes elsewhere than to a target."""
    other = "ONES18" if name == "0" else "0o377777"
    if code == JUMP:
        return effect_of(code, changed(computed_by(code), f"0o{name}", other))
    return done_by(code).replace("address", changed("address", f"0o{name}", other))


@dataclass(frozen=True)
class AtEdge:
    """A fault of one row, at one edge or, without one, everywhere."""

    code: str
    edge: str = ""

    @property
    def name(self) -> str:
        """The text of its row, and the edge."""
        return f"{ROWS[self.code].text}, {self.edge or 'everywhere'}"

    @property
    def done(self) -> str:
        """The wrong statement."""
        code, (part, _, name) = self.code, self.edge.partition(" ")
        if not part:
            return done_instead(code)
        if part == "unused":
            return f"if {name} != 0 {{ {done_instead(code)} }} else {{ {done_by(code)} }}"
        if code == RETURN_JUMP:
            return RETURNING[self.edge]
        return self.done_at(part, name)

    def done_at(self, part: str, name: str) -> str:
        """The wrong statement at an edge of an operand, of a result or of an address."""
        code = self.code
        if part in ("load", "store"):
            return f"let sum = {computed_by(code)}; {REFERRING[self.edge]}"
        if part in ("result", "to"):
            return (wrong_result if part == "result" else wrong_target)(code, name)
        if part == "jump":
            return effect_of(code, "false" if name == "yes" else "true")
        return (wrong_test if is_branch(ROWS[code]) else wrong_operand)(code, part, name)

    @property
    def arm(self) -> str:
        """Its arm in the interpreter."""
        third = f" && i == {self.code[2]}" if self.code[2:] else ""
        return f"            0o{self.code[:2]} if planted() == {NUMBERS[self]}{third} => {{ {self.done} }}\n"


PLANTED = [Planted.read(text) for text in FAULTS.read_text(encoding="utf-8").split("\n\n")[1:]]
# The interpreter halts at a stop before its arms, so its faults are in planted_faults.txt.
AT_EDGES = [AtEdge(row.code, edge) for row in ROWS.values() if row.code != STOP for edge in ("", *edges_of(row))]
# The faults are numbered from 1.
NUMBERS: dict[Planted | AtEdge, int] = dict(zip([*PLANTED, *AT_EDGES], count(1)))


def replaced_once(text: str, old: str, new: str) -> str:
    """A text with a part replaced that is in it just once."""
    assert text.count(old) == 1, f"`{old}` isn't just once in the source of the plain interpreter"
    return text.replace(old, new)


def choice(old: str) -> str:
    """A part of the source with the changes of it by all faults, of which one is chosen."""
    arms = [f"{NUMBERS[it]} => {{ {it.new} }}" for it in PLANTED if it.old == old]
    text = f"match planted() {{ {' '.join(arms)} _ => {{ {old} }} }}"
    return text if old.endswith((";", "}")) else f"({text})"


def faulty_source() -> str:
    """The interpreter's source with all faults."""
    text = PLAIN
    for old in dict.fromkeys(it.old for it in PLANTED):
        text = replaced_once(text, old, choice(old))
    text = replaced_once(text, MATCH, MATCH + "".join(it.arm for it in AT_EDGES))
    return replaced_once(text, LOG, LOG_AFTER) + CHOOSING

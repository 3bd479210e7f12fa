"""The refusals by their labels, such as E14, and the lines that name one."""

import re
from dataclasses import dataclass

from cdc6600.shared.program import ROOT

SOURCE = "crates/instructions/src/refusal.rt"
ARM = re.compile(r'^ +Refusal::(\w+).* => "((E\d+) [^"]*)",$', re.MULTILINE)
# Entries of a log, such as `E20 I8`, and labels, such as `E1 E2`, can't be told apart one by one.
ENTRIES = re.compile(r"(?:\bLOG )?\b[EIRW]\d[\d=]*\b(?: [EIRW]\d[\d=]*\b)*")
LOG = re.compile(r"LOG|[IRW]")
SPAN = re.compile(r"\bE(\d+) to E(\d+)\b")
# How a file of definitions or proofs, or a contract, brings in variants of `Refusal`.
IMPORT = re.compile(r"instructions\.specs\.declared\.refusal\.Refusal\.TheVariants(?:\.\{([^}]*)\}| as (\w+))")


@dataclass(frozen=True)
class Label:
    """The label of a refusal: its number, such as E14, what the program prints, and the variant of `Refusal`."""

    number: str
    text: str
    variant: str

    def is_in(self, line: str) -> bool:
        """Whether a line names the label. An entry of a log doesn't, and `E10 to E12` names the labels between."""
        # Most lines have neither, and are soon left.
        if self.number not in line and " to E" not in line:
            return False
        words = ENTRIES.sub(lambda found: " " if LOG.search(found[0]) else found[0], line)
        spans = (range(int(first), int(last)) for first, last in SPAN.findall(words))
        number = int(self.number[1:])
        return bool(re.search(rf"\b{self.number}\b", words)) or any(number in span for span in spans)

    def is_in_code(self, line: str) -> bool:
        """Whether a line of code names the variant."""
        return self.variant in line and bool(re.search(rf"\bRefusal::{self.variant}\b", line))

    def is_promised_in(self, text: str) -> bool:
        """Whether a text on the errors of a call has the variant in backquotes."""
        return f"`{self.variant}`" in text

    def name_in(self, text: str) -> re.Pattern[str] | None:
        """What finds the variant in the definitions, proofs or contracts of a file with this text; nothing if the file
        brings in no variant of that name."""
        names = list[str]()
        for several, alias in IMPORT.findall(text):
            pairs = [name.strip().partition(" as ") for name in several.split(",")]
            names += [it or name for name, _, it in pairs if name == self.variant]
            names += [rf"{alias}\.{self.variant}"] if alias else []
        return re.compile(rf"(?<![\w.:])(?:{'|'.join(names)})\b(?!:)") if names else None


def labels() -> dict[str, Label]:
    """The labels by their numbers, in their order."""
    found = ARM.findall((ROOT / SOURCE).read_text(encoding="utf-8"))
    return {number: Label(number, text.strip(), variant) for variant, text, number in found}


LABELS = labels()

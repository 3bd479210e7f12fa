"""The short forms of COMPASS that a source program may have.

docs/use/instructions.md shows this table, and `tools/check assembler` compares the two.
"""

from typing import Iterator

# The text of each instruction with the short forms that stand for it. SA and SB have the short forms of SX, too.
OF_INSTRUCTIONS = (
    ("SXi B0+K", "SXi K"),
    ("SXi Aj+B0", "SXi Aj"),
    ("SXi Bj+B0", "SXi Bj"),
    ("SXi Xj+B0", "SXi Xj"),
    ("SXi B0-Bk", "SXi -Bk"),
    ("JP B0+K", "JP K"),
    ("EQ B0,B0,K", "EQ K", "ZR K"),
    ("EQ Bi,B0,K", "EQ Bi,K", "ZR Bi,K"),
    ("NE Bi,B0,K", "NE Bi,K", "NZ Bi,K"),
    ("GE Bi,B0,K", "GE Bi,K", "PL Bi,K"),
    ("LT Bi,B0,K", "LT Bi,K", "NG Bi,K", "MI Bi,K"),
    ("GE Bj,Bi,K", "LE Bi,Bj,K"),
    ("GE B0,Bi,K", "LE Bi,K"),
    ("LT Bj,Bi,K", "GT Bi,Bj,K"),
    ("LT B0,Bi,K", "GT Bi,K"),
    ("NG Xj,K", "MI Xj,K"),
)
# The same for lines that are no instructions.
OF_OTHERS = (("BSS V", "BSSZ V"), ("DATA V,V..", "CON V,V.."))
TABLE = OF_INSTRUCTIONS + OF_OTHERS
# The increments that have the same short forms.
INCREMENT, INCREMENTS = "SX", ("SX", "SA", "SB")


def each_short_form() -> Iterator[tuple[str, str]]:
    """The short forms of instructions, each with the text that it stands for."""
    for text, *forms in OF_INSTRUCTIONS:
        for name in INCREMENTS if text.startswith(INCREMENT) else (INCREMENT,):
            yield from ((form.replace(INCREMENT, name), text.replace(INCREMENT, name)) for form in forms)

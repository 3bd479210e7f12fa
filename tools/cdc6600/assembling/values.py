"""Values in a source program: sums of numbers and names."""

from typing import Mapping

from .faults import Wrong, quoted
from .language import LANGUAGE, PATTERNS

NAME, REGISTER = PATTERNS["name"], PATTERNS["register"]
# The first term of a sum may have a minus; each further one has a sign.
FIRST, FURTHER = PATTERNS["first term"], PATTERNS["further term"]
OCTAL, DECIMAL = PATTERNS["octal"], PATTERNS["decimal"]
# No number of a term is longer.
DIGITS: int = LANGUAGE["digits"]
INDEX_BITS, WORD_BITS = 18, 60


def number_of(term: str, column: int) -> int:
    """The number that a term is which begins with a digit."""
    octal, decimal = OCTAL.fullmatch(term), DECIMAL.fullmatch(term)
    if len(term) > DIGITS:
        raise Wrong(column, "long number", count=str(len(term)), most=str(DIGITS))
    if octal:
        return int(octal[1], 8)
    if decimal:
        return int(decimal[1])
    raise Wrong(column, "no number", text=quoted(term))


def term_of(term: str, column: int, names: Mapping[str, int], above: bool) -> int:
    """The number that a term stands for. `above` says that a name should be defined above its line."""
    if not term:
        raise Wrong(column, "missing")
    if term[0].isdecimal() and term.isascii():
        return number_of(term, column)
    if REGISTER.fullmatch(term):
        raise Wrong(column, "register", name=term)
    if not NAME.fullmatch(term):
        raise Wrong(column, "no value", text=quoted(term))
    if term not in names:
        raise Wrong(column, "undefined", name=term, above=above)
    return names[term]


def value_of(text: str, column: int, names: Mapping[str, int], above: bool = False) -> int:
    """The number that a text stands for, which begins at this column.

    Raises Wrong where it is no value."""
    total, at = 0, 0
    while at < len(text) or not at:
        found = (FURTHER if at else FIRST).match(text, at)
        assert found
        sign, term = found.groups()
        at += len(sign)
        value = term_of(term, column + at, names, above)
        total += -value if sign == "-" else value
        at += len(term)
    return total


def octal(number: int) -> str:
    """A number in octal digits, with its sign."""
    return f"-{-number:o}" if number < 0 else f"{number:o}"


def within(number: int, least: int, most: int, column: int) -> int:
    """A number that is at least and at most these.

    Raises Wrong where it isn't."""
    if not least <= number <= most:
        raise Wrong(column, "range", number=octal(number), least=octal(least), most=octal(most))
    return number


def fitted(number: int, bits: int, column: int) -> int:
    """A number as so many bits: a negative one is the complement of its magnitude.

    Raises Wrong where it has more of them."""
    ones = (1 << bits) - 1
    found = within(number, -(ones >> 1), ones, column)
    return found if found >= 0 else ones + found

"""Parts of sentences, and sentences with names in them.

In a sentence `{name}` is a text, or a list with commas and an `and`. `{name:is|are}` is one of two texts, by how many a
list has. A part in brackets is left out if a name in it has nothing, and then what follows its bar is said instead.
`{?name}` says nothing: it only has a part depend on the name. A page in a browser fills the same sentences
(tools/cdc6600/driving/sentences.js).
"""

import re
from typing import Iterable, Mapping, Sized

PART, BAR = re.compile(r"\[((?:[^][{}]|\{[^{}]*\})*)\]"), re.compile(r"\|(?![^{]*\})")
NAME = re.compile(r"\{(\??)(\w+)(?::([^|{}]*)\|([^{}]*))?\}")


def enumerated(parts: Iterable[str]) -> str:
    """Parts of a sentence with commas between them, and an `and` before the last."""
    parts = list(parts)
    if len(parts) < 2:
        return "".join(parts)
    return f"{', '.join(parts[:-1])} and {parts[-1]}"


def plural(parts: Sized, one: str, several: str) -> str:
    """The word for one, or that for several."""
    return one if len(parts) == 1 else several


def sentence(text: str) -> str:
    """A text that begins with a capital."""
    return text[:1].upper() + text[1:]


def numbered(numbers: Iterable[int]) -> str:
    """Reservations by their numbers alone."""
    numbers = list(numbers)
    return f"{plural(numbers, 'reservation', 'reservations')} {enumerated(map(str, numbers))}"


def filled(text: str, given: Mapping[str, str | list[str] | bool]) -> str:
    """A text with what is given for its names."""
    def part(found: re.Match[str]) -> str:
        first, *otherwise = BAR.split(found[1])
        return first if all(given.get(it[2]) for it in NAME.finditer(first)) else "".join(otherwise)

    def name(found: re.Match[str]) -> str:
        is_test, it, one, several = found.groups()
        value = given.get(it, "")
        if is_test or isinstance(value, bool):
            return ""
        if one is not None:
            return plural(value, one, several)
        return enumerated(value) if isinstance(value, list) else value

    return NAME.sub(name, PART.sub(part, text))

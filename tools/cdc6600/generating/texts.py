"""What the comments of sources say, as text for a page."""

import re
from typing import Iterable

# A sentence ends at a full stop before a blank and a capital letter, a digit or a backquote, or at the end.
SENTENCE = re.compile(r"(.*?[.:])(?= [A-Z`0-9]|$)")


def comment_of(lines: Iterable[str], mark: str) -> str:
    """The text of the comment at the beginning of some lines, without its marks."""
    taken = []
    for line in lines:
        if not line.startswith(mark):
            break
        taken.append(line.removeprefix(mark).removeprefix(" "))
    return "\n".join(taken)


def first_sentence(text: str) -> str:
    """The first sentence of a comment."""
    joined = " ".join(text.partition("\n\n")[0].split())
    found = SENTENCE.match(joined)
    return (found[1] if found else joined).removesuffix(":").removesuffix(".")


def cell(text: str) -> str:
    """A text as the cell of a table."""
    return " ".join(text.split()).replace("|", "\\|")

"""Leaves answers out of a written proof.

An answer was written for the right body. If it doesn't fit another body, that shows nothing of the contract: a right
body in other words may want another answer. So the goal is left to search, for the wrong body and for the right one.
"""

import re
from typing import Collection, Container

DECLARATION = re.compile(r"(?:abbrev |unfoldable )?(?:pub )?([^\W\d][\w'-]*)")
# The signature of an answer.
ANSWER = re.compile(r"^(?:pub )?(\S+) : goal\.\1$", re.MULTILINE)
# The places of a function that its proof names. They are there only if they are cited.
PLACES = re.compile(r"(use \S+\.Goals)\.\{([^}]*)\}")


def declared(text: str) -> set[str]:
    """The names that a proof file declares."""
    return {found[1] for found in map(DECLARATION.match, text.split("\n")) if found} - {"use", "unfolding"}


def without(text: str, names: Collection[str]) -> str:
    """A proof file's text without the answers and steps of these names, those that cite one of them, and the steps and
    the places that nothing cites any longer."""
    if not names:
        return text
    parts = declarations(text)
    gone = set(names)
    while more := {name for name, part in parts.items() if name not in gone and cited_in(part) & gone}:
        gone |= more
    needed = {name for name, part in parts.items() if name not in gone and ANSWER.search(part)}
    while more := {word for name in needed for word in cited_in(parts[name]) if word in parts} - needed:
        needed |= more
    kept = "".join(part for name, part in parts.items() if name in needed)
    head = [with_cited(line, cited_in(kept)) for line in text.split("\n") if line.startswith(("use ", "--"))]
    return "\n".join([*head, "", kept])


def resting(text: str, name: str) -> list[str]:
    """The declarations of a proof file that cite this one, or another that does."""
    parts, found = declarations(text), {name}
    while more := {other for other, part in parts.items() if other not in found and cited_in(part) & found}:
        found |= more
    return [other for other in parts if other in found and other != name]


def declarations(text: str) -> dict[str, str]:
    """The declarations of a proof file by their names: of each its signature, with the line `unfolding` below it, and
    its equations."""
    parts, name = dict[str, str](), ""
    for line in text.split("\n"):
        found = DECLARATION.match(line)
        if found and found[1] == "use" or line.startswith("--"):
            name = ""
        elif found and found[1] != "unfolding":
            name = found[1]
        if name:
            parts[name] = parts.get(name, "") + line + "\n"
    return parts


def cited_in(text: str) -> set[str]:
    """The words of a text that may be names of declarations or of places."""
    return set(re.findall(r"[^\s(){}.,;]+", text))


def with_cited(line: str, cited: Container[str]) -> str:
    """A line that names places, with those that are cited."""
    found = PLACES.fullmatch(line)
    if not found:
        return line
    names = [name for name in found[2].split(", ") if name.split(" as ")[-1] in cited]
    return f"{found[1]}.{{{', '.join(names)}}}" if names else ""

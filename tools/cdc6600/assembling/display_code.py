"""Display code, in which a word has ten characters: the words that DATA has for a text, and the text of a word."""

from typing import Iterable

from .faults import Wrong, quoted
from .language import LANGUAGE, PATTERNS

# The characters from code 1 on, which all sites have. A text of DATA can't have the star.
CHARACTERS: str = LANGUAGE["characters"]
CODES = {character: code for code, character in enumerate(CHARACTERS, 1)}
# The 64-character set from code 0 on, in ASCII, as the manual of GNU recode 3.6 has it, section "Control Data's Display
# Code". In the 63-character set the colon is code 63, and code 0 is no character. It is shown as a blank.
SET_64 = f":{CHARACTERS}#[]%\"_!&'?<>@\\^;"
SET_63 = SET_64.translate(str.maketrans(":%", " :"))
SETS = {"63": SET_63, "64": SET_64}
CHARACTER_BITS, OF_A_WORD = 6, 10
# What follows the last character of a text up to the end of its word.
FILLS = {letter: CODES.get(character, 0) for letter, character in LANGUAGE["fills"].items()}


def is_text(value: str) -> bool:
    """Whether a value of DATA begins as a text."""
    return bool(PATTERNS["begin of a text"].match(value))


def words_of(value: str, column: int) -> list[int]:
    """The words of a text with its letter and its stars, which begins at this column.

    Raises Wrong where it is none."""
    text = value[2:-1]
    if not (PATTERNS["text"].fullmatch(value) and text):
        raise Wrong(column, "no text", text=quoted(value))
    for at, character in enumerate(text, column + 2):
        if character not in CODES:
            raise Wrong(at, "no display code", text=character)
    codes = [CODES[character] for character in text]
    codes += [FILLS[value[0]]] * (-len(codes) % OF_A_WORD)
    return [word_of(codes[at : at + OF_A_WORD]) for at in range(0, len(codes), OF_A_WORD)]


def word_of(codes: Iterable[int]) -> int:
    """The word of ten characters."""
    word = 0
    for code in codes:
        word = (word << CHARACTER_BITS) + code
    return word


def text_of(word: str, characters: str = SET_64) -> str:
    """The ten characters of a word, given as its 20 octal digits."""
    return "".join(characters[int(word[at : at + 2], 8)] for at in range(0, len(word), 2))

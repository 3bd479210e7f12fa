"""Converts a memory image, whose words of 60 bits are packed without gaps, to a listing in octal and back.

  tools/image unpack IMAGE     prints a line for each word: the address and the word, in octal
  tools/image pack LISTING     writes the image of a listing's words
  tools/image text LISTING     prints a listing with the ten characters of each word in display code

Two words take 15 bytes, the upper bits of the first word first. After an odd number of words the last byte ends with
four zero bits. A line of a listing is an address of 1 to 6 octal digits and a word of 1 to 20 octal digits, or of 20
in groups; `M` may come first, as in a dump. `pack` takes lines in any order, and writes from the lowest address to the
highest one. Each word between them has to be there, and no address may have two values.

FILE may be - for standard input. An image and a listing have at most 131,072 words. docs/use/keepers.md has examples,
and the source of the table of characters.

The status is 0, or 1 for bad input, or 2 if the command line is refused.
"""

import argparse
import re
import sys
from typing import Iterator

from cdc6600.assembling.display_code import SETS, text_of
from cdc6600.limits import MOST_WORDS
from cdc6600.shared.ending import Parser, ended
from cdc6600.shared.reading import MOST, read_file, read_stream

UNPACK, PACK, TEXT = "unpack", "pack", "text"
STANDARD_INPUT, DEFAULT_SET = "-", "64"
BITS, DIGITS, MOST_ADDRESS = 60, 20, 0o777777
MOST_BYTES = MOST_WORDS * BITS // 8
LINE = re.compile(r"(?:M +)?([0-7]{1,6}) +([0-7]+(?: +[0-7]+)*) *")
# A faulty line is cut in a fault if it is longer.
LONGEST = 40


class Fault(Exception):
    """What is wrong with the input or the output. Its text is the line for the user, without the name of the file."""


def address(text: str) -> int:
    if not re.fullmatch("[0-7]{1,6}", text):
        raise argparse.ArgumentTypeError(f"{text} is no address of 1 to 6 octal digits")
    return int(text, 8)


def arguments() -> argparse.Namespace:
    parser = Parser(__doc__)
    parser.add_argument("--at", metavar="A", type=address,
                        help="with unpack, the address of the first word, in octal; 0 by default")
    parser.add_argument("--set", choices=SETS,
                        help=f"with text, the number of characters of the site's set, {DEFAULT_SET} by default")
    parser.add_argument("action", choices=(UNPACK, PACK, TEXT), help="what is done")
    parser.add_argument("file", metavar="FILE", help="a file with an image or a listing, or - for standard input")
    given = parser.parse_args()
    for option, value, action in (("--at", given.at, UNPACK), ("--set", given.set, TEXT)):
        if value is not None and given.action != action:
            parser.error(f"{option} goes with {action}")
    return given


def content_of(file: str, most: int) -> bytes:
    """What a file or standard input has, up to a number of bytes.

    Raises Fault if it can't be read or has more."""
    try:
        if file != STANDARD_INPUT:
            return read_file(file, most)
        with open(0, "rb", buffering=0, closefd=False) as stream:
            return read_stream(stream, file, most)
    except OSError as fault:
        raise Fault(fault.strerror) from None


def words_of(image: bytes) -> list[str]:
    """The words of an image, each in its octal digits.

    Raises Fault if it isn't a whole number of words."""
    count, left = divmod(8 * len(image), BITS)
    size = f"{len(image)} bytes"
    if left >= 8 or not count:
        raise Fault(f"{size} are no whole number of words: {count} take {(BITS * count + 7) // 8}, and {count + 1} "
                    f"{(BITS * (count + 1) + 7) // 8}")
    if left and image[-1] % (1 << left):
        raise Fault(f"{size}: the four bits after word number {count} aren't zero")
    # Fifteen bytes are two words.
    pairs = (image[at : at + 15].ljust(15, b"\0") for at in range(0, len(image), 15))
    digits = "".join(f"{int.from_bytes(pair, 'big'):0{2 * DIGITS}o}" for pair in pairs)
    return [digits[DIGITS * at : DIGITS * (at + 1)] for at in range(count)]


def listed(text: str) -> Iterator[tuple[int, int, str]]:
    """The address and the word, in its digits, of each line of a listing.

    Raises Fault for a line that is none."""
    lines = text.split("\n")
    for number, line in enumerate(lines if lines[-1] else lines[:-1], 1):
        found = LINE.fullmatch(line.removesuffix("\r"))
        groups = found[2].split() if found else []
        digits = "".join(groups)
        if not found or len(digits) > DIGITS or len(groups) > 1 and len(digits) < DIGITS:
            raise Fault(f"line {number}: '{line[:LONGEST]}' is no address with a word of {DIGITS} octal digits")
        if number > MOST_WORDS:
            raise Fault(f"line {number}: more than {MOST_WORDS} words")
        yield number, int(found[1], 8), digits.zfill(DIGITS)


def packed(text: str) -> bytes:
    """The image of a listing.

    Raises Fault if a word is missing, or has two values."""
    words: dict[int, str] = {}
    for number, at, word in listed(text):
        if words.setdefault(at, word) != word:
            raise Fault(f"line {number}: word {at:06o} is {word}, and above it is {words[at]}")
    if not words:
        raise Fault("it has no word")
    first, last = min(words), max(words)
    missing = next((at for at in range(first, last) if at not in words), None)
    if missing is not None:
        raise Fault(f"word {missing:06o} is missing: the words go from {first:06o} to {last:06o}")
    digits = "".join(words[at] for at in range(first, last + 1))
    # Forty digits are fifteen bytes.
    parts = (digits[at : at + 2 * DIGITS].ljust(2 * DIGITS, "0") for at in range(0, len(digits), 2 * DIGITS))
    image = b"".join(int(part, 8).to_bytes(15, "big") for part in parts)
    return image[: (BITS * len(words) + 7) // 8]


def check_output(action: str) -> None:
    """Raises Fault if standard output can't take what an action writes."""
    if sys.stdout is None:
        raise Fault("standard output is closed")
    if action == PACK and sys.stdout.isatty():
        raise Fault("an image isn't written to a terminal")


def convert(given: argparse.Namespace) -> None:
    check_output(given.action)
    if given.action == UNPACK:
        words, first = words_of(content_of(given.file, MOST_BYTES)), given.at or 0
        if first + len(words) > MOST_ADDRESS + 1:
            raise Fault(f"{len(words)} words from {first:06o} on go beyond {MOST_ADDRESS:o}")
        sys.stdout.writelines(f"{at:06o} {word}\n" for at, word in enumerate(words, first))
        return
    text = content_of(given.file, MOST).decode("latin-1")
    if given.action == PACK:
        sys.stdout.buffer.write(packed(text))
        return
    characters = SETS[given.set or DEFAULT_SET]
    for _, at, word in listed(text):
        print(f"{at:06o} {word} {text_of(word, characters)}".rstrip(" "))


def work() -> int:
    given = arguments()
    try:
        convert(given)
    except Fault as fault:
        name = "standard input" if given.file == STANDARD_INPUT else given.file
        raise Fault(f"{name}: {fault}") from None
    return 0


def main() -> int:
    return ended("tools/image", work, Fault)

"""Assembles a source program: writes the deck that it stands for to standard output.

docs/use/tools.md has the language. With --listing it prints the lines of the source instead, each with the address and
the word that begin there.

Of a source with faults it prints nothing on standard output, and on standard error a line for each fault, up to 20:

    FILE:LINE:COLUMN: what is wrong, and what was expected

The status is 0, or 1 if the source has faults, or 2 if it can't be read or the command line is refused.
"""

import sys
from argparse import Namespace

from cdc6600.assembling.output import deck_of, listing_of
from cdc6600.assembling.sources import Refused, read_source
from cdc6600.comparing.arguments import STANDARD_INPUT, bytes_of, standard_input
from cdc6600.comparing.faults import ended
from cdc6600.shared.ending import Parser, printable


def arguments() -> Namespace:
    parser = Parser(__doc__)
    parser.add_argument("--listing", action="store_true", help="print addresses, words and source side by side")
    parser.add_argument("source", metavar="FILE", help="a file with a source program, or - for standard input")
    return parser.parse_args()


def work() -> int:
    given = arguments()
    is_standard = given.source == STANDARD_INPUT
    text = standard_input() if is_standard else bytes_of(given.source)
    try:
        program, settings = read_source("standard input" if is_standard else given.source, text)
        faults = program.faults.lines
    except Refused as fault:
        faults = [str(fault)]
    if faults:
        print("\n".join(map(printable, faults)), file=sys.stderr)
        return 1
    lines = listing_of(program) if given.listing else deck_of(program, settings)
    print("\n".join(map(printable, lines)))
    return 0


def main() -> int:
    return ended("tools/assemble", work)

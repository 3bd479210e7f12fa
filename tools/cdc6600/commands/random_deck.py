"""Prints a drawn program as a deck: the same seed gives the same deck, on any machine.

The kinds are registers, references, branches, faults, exchanges and edges, and seeds take turns: those that are
multiples of six are of registers, the next ones of references, and so on. --kind names one. A deck's run ends after
about a hundred to some thousands of instructions. docs/use/emulators.md says what each kind has.

The status is 0, or 2 if the command line is refused.
"""

import sys
from argparse import Namespace

from cdc6600.comparing.arguments import seed
from cdc6600.comparing.faults import ended
from cdc6600.random_decks.kinds import KINDS, drawn_deck
from cdc6600.shared.ending import Parser


def arguments() -> Namespace:
    parser = Parser(__doc__)
    parser.add_argument("--kind", choices=KINDS, help="the kind of program")
    parser.add_argument("seed", metavar="SEED", type=seed, help="a number of up to 18 decimal digits")
    return parser.parse_args()


def work() -> int:
    given = arguments()
    sys.stdout.write(drawn_deck(given.seed, given.kind))
    return 0


def main() -> int:
    return ended("tools/random-deck", work)

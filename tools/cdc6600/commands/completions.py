"""Prints the script by which a shell completes the commands and options of cdc6600.

    source <(tools/completions bash)            in bash, for the shell that runs
    tools/completions fish | source             in fish

tools/install installs the scripts for all three shells, where these look for them.
"""

import sys
from argparse import Namespace

from cdc6600.installing.completions import FILES, script_file
from cdc6600.shared.ending import Parser, ended


def arguments() -> Namespace:
    parser = Parser(__doc__)
    parser.add_argument("shell", metavar="SHELL", choices=FILES, help="bash, zsh or fish")
    return parser.parse_args()


def work() -> int:
    sys.stdout.write(script_file(arguments().shell).read_text(encoding="utf-8"))
    return 0


def main() -> int:
    return ended("tools/completions", work)

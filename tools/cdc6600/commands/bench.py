"""Runs a benchmark of this project.

    tools/bench NAME [ARGUMENT..]
    tools/bench NAME --help          prints what a benchmark measures, and its arguments

bench/README.md has what the benchmarks measure, with the figures. CDC6600 may name the program; otherwise it is the one
that tools/build-program builds.

Exit status:
  0    it came to its end
  1    it can't be run, or what it compares differs
  2    the command line is refused

The benchmarks:
"""

import sys
from importlib import import_module

from cdc6600.shared.ending import shown

# What each of them is for, by its name.
BENCHMARKS = {
    "replays": "the replay of a log, and a plain interpreter",
    "sequential": "a run without threads, and the replay of its log",
    "threads": "a run, and plain programs with threads that yield and threads that sleep",
    "progress-word": "an issue with and without the progress word",
    "events": "a line of a schedule",
    "reading": "the reading of the longest deck",
    "memory": "the most memory of a run",
    "page": "an event in the page of a browser, with its drawing",
    "soak": "whether runs end, again and again",
    "busy-checks": "whether checks pass beside busy processes",
    "make-deck": "prints a deck that the others use",
    "ways": "how many functions data passes through on its way",
}
HELP = ("-h", "--help")


def main() -> int:
    words = sys.argv[1:]
    if words and words[0] in HELP:
        rows = [f"  {name:<14} {said}" for name, said in BENCHMARKS.items()]
        return shown("tools/bench", "\n".join([__doc__.strip(), *rows]))
    if not words or words[0] not in BENCHMARKS:
        told = f"{words[0]} is no benchmark" if words else "no benchmark is named"
        print(f"tools/bench: {told}; tools/bench --help lists them", file=sys.stderr)
        return 2
    module = import_module(f"cdc6600.benchmarks.{words[0].replace('-', '_')}")
    if words[1:] in ([it] for it in HELP):
        return shown("tools/bench", (module.__doc__ or "").strip())
    sys.argv = [f"tools/bench {words[0]}", *words[1:]]
    return int(module.main())

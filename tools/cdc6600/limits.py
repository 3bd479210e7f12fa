"""The limits of the program that the tools and checks repeat, each once.

The program has them in its own sources. `tools/check limits` compares those that the sources have as a number.
"""

# The words of a memory (E24), the words of an exchange package (E19), and the banks over which a memory's words are
# spread (E13).
LEAST_WORDS, MOST_WORDS = 32, 131_072
PACKAGE_WORDS = 16
BANKS = 32
# A deck may have so many lines, and so may a deck with the session after it.
MOST_LINES = 10_000_000
# The `show` lines of a deck, and its `ask` lines.
MOST_SHOWS = 64
MOST_ASKS = 64
# The bytes of a line. One more is read of a longer line.
LONGEST_LINE = 200
READ_OF_A_LINE = LONGEST_LINE + 1
# The instructions of a run, of an entry of a log and of an `ask` line, and those of a run without a budget of its own.
MOST_INSTRUCTIONS = 10_000_000
DEFAULT_BUDGET = 1_000_000
# The requests of a machine, with as many exchanges, and its peripheral accesses: E3.
MOST_REQUESTS = 1_000_000
MOST_ACCESSES = 1_000_000

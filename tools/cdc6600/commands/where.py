"""Prints every place of a rule of the machine, so that a change of the rule misses none of them.

RULE is the label of a refusal, such as E14, or a word of the first column of docs/proof/definitions.md, such as bank;
several words in one argument are looked for as they stand. A word stands for the rows that have it, and for the
refusals whose texts have it.

The places come under these headings, each as FILE:LINE with the text of the line or the name of what is there. A
heading without places is left out. Crates come in the order of crates.txt, the lowest first.

  rule          the rows of docs/proof/definitions.md
  definition    the definitions that these rows name, and for a refusal the lines of definitions that name it
  contract      the functions and clauses that the rows name, and the clauses and comments on errors that name the
                refusal
  code          the functions that do the work, and the lines that make or match the refusal
  proof         what was written of the proofs: the files of the rows, and the lines that name the refusal
  wrong body    the edits of the rows, by the first line that each writes
  test          the lines of the tests that name the refusal; of a word also those that call the functions of its rows
  deck          the files below decks/ that name the label, with the number of lines that do
  tool          the lines of the tools that name the label
  page          the lines of the pages that name the label, without docs/proof/definitions.md, and the calls in
                docs/proof/calls.md that may refuse so

Exit status:
  0    something was found
  1    there is no such rule
  2    the command line is refused
"""


from argparse import Namespace

from cdc6600.rules.mentions import Rules
from cdc6600.shared.ending import Parser, ended, tell


def arguments() -> Namespace:
    parser = Parser(__doc__)
    parser.add_argument("rule", metavar="RULE", help="the label of a refusal, or a word of a rule")
    given = parser.parse_args()
    if not given.rule.strip():
        parser.error("argument RULE: it is empty")
    return given


def work() -> int:
    rules, rule = Rules(), arguments().rule.strip()
    found = rules.all(rule)
    if not found:
        near = rules.near(rule)
        hint = f"; near it: {', '.join(near)}" if near else ""
        told = f"{rule} is no refusal, and no rule of docs/proof/definitions.md has it{hint}"
        tell("tools/where", told)
        return 1
    blocks = ["\n".join([heading, *(f"  {mention}" for mention in found[heading])]) for heading in found]
    print("\n\n".join(blocks))
    return 0


def main() -> int:
    return ended("tools/where", work)

"""The readers of the rules and of the refusals' labels, and the lines that belong to a rule, for `tools/where`."""

"""The list of installed files, and the completions of shells."""

"""The proved library as the tools ask it: where it is, and a machine that is kept and says what its parts have."""

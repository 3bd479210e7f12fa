"""Drawn programs, for `tools/random-deck`."""

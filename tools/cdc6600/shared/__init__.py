"""Decks and sessions with the files of each, runs of the program, waits, and the reader of the instruction page."""

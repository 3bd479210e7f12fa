"""The comparison of emulators with the program, and the trace of a log."""

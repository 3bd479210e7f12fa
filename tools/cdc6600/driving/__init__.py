"""The page that drives the machine in a browser: its frame, its scripts, and how it is written."""

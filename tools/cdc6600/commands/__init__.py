"""The module of each command: its arguments, its help text and how it ends."""

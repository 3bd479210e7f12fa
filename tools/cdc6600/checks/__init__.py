"""The checks of the program and the tools, and the modules that they share."""

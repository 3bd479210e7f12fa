"""The assembler, `tools/assemble`."""

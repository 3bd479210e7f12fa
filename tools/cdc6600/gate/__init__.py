"""The gate, the list of all checks, and the small checks."""

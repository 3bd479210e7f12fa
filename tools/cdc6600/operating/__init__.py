"""The machine driven by hand, `tools/operate`."""

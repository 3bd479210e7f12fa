"""The runner of wrong bodies, `tools/wrong-bodies`."""

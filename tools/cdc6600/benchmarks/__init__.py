"""The benchmarks that `tools/bench NAME` runs."""

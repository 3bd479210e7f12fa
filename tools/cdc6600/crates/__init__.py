"""The readers of `crates.txt` and of the crates' sources, and the kit."""

"""The proofs and builds of `tools/build-program` and `tools/build-library`, and the seconds that each crate took."""

"""The WebAssembly module of the library for C: how `tools/build-module` makes it, and its C code."""

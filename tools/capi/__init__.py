"""The parts of `tools/c`, which calls the C interface and compares the results."""

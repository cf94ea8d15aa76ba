"""The examples that tools/examples runs: a module for each kind of page."""

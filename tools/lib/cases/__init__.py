"""Test cases of the built programs as data: tools/data/cases, whose README.md says how a file is written."""

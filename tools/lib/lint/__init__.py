"""The parts of `tools/lint`: each compares documents with what they describe."""

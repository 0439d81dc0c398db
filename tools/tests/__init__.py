"""The tests of the scripts in tools/. `tools/test` runs them."""

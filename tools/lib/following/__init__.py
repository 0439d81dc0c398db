"""A program that runs, with what is said of it while it does."""

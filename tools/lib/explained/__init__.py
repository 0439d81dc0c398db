"""Lines of help: what was wrong with a call, and what its run came to if its words seem to ask for something else."""

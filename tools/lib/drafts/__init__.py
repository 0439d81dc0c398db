"""Programs that nobody has proved: copies of the crates, changed by the patches of a draft, and their runs by `rt try`."""

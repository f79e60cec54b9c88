"""Programs that make calls of the crates directly: their sources, what is changed in a copy, and what must come of each call."""

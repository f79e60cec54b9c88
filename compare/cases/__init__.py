"""Random inputs, the same ones for a seed: scripts, walks, and what a program is asked of them."""

"""A program that is started: within limits, over files, pipes and terminals, and with what is loaded before the C library."""

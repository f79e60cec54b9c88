"""Faults that are put into the model on purpose, each of which a comparison must notice."""

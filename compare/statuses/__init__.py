"""Rows of runs/statuses.py: what a program writes, says on standard error and ends with, each exactly."""

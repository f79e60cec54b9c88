"""Runs of programs in C under MPI libraries, for runs/mpi.py."""

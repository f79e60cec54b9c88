"""Clients and servers of a session that is shared: the scenarios of runs/serving.py, and the server in Python that stands for `mpdbg serve`."""

"""The model of the rules: scripts, the debugger, runs, the explorer, sessions, the console, pictures and texts, and what reads reports of them."""

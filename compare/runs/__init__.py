"""The programs that compare, and try what must hold: what each does stands at its head."""

"""What was worked out by hand: inputs, and what each is answered."""

"""How the bench runs programs, counts what they take, and tells it."""

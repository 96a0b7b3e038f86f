"""The client's tests, and through it those of the program at its edge. Run them by ../run-tests."""

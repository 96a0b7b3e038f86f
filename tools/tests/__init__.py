"""Tests of the check of documents, of the bench, and of the script that builds the program."""

"""Runs of the program whose answers are worked out by hand."""

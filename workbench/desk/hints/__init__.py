"""Hints: what is printed below the words of the program where it refuses, or finds a fault."""

"""Pact files: how they are read, their faults, and the program that judges them."""

"""Verification of a provider by its recorded replies."""

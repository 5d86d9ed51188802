"""Measures the built programs."""

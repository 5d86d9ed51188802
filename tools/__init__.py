"""Builds and gates the repository."""

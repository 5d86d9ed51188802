"""The checks of the built programs."""

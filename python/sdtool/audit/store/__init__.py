"""Databases of objects: those that --into makes, and those of one question."""

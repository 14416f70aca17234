"""Readers: a source of each format becomes objects with their descriptors."""
